//! Typed values to and from the words of a record.

/// A value that stands in a run of words, one a number.
pub(crate) trait Words: Sized {
    /// How many words it has.
    const COUNT: usize;

    /// The value in the first words.
    fn take(words: &[u64]) -> Self;

    /// Puts the value into the first words.
    fn put(&self, words: &mut [u64]);
}

impl Words for bool {
    const COUNT: usize = 1;

    #[inline]
    fn take(words: &[u64]) -> Self {
        words[0] != 0
    }

    #[inline]
    fn put(&self, words: &mut [u64]) {
        words[0] = u64::from(*self);
    }
}

macro_rules! numbers {
    ($($number:ident as $bits:ident),*) => {$(
        impl Words for $number {
            const COUNT: usize = 1;

            #[inline]
            fn take(words: &[u64]) -> Self {
                words[0] as $bits as $number
            }

            #[inline]
            fn put(&self, words: &mut [u64]) {
                words[0] = u64::from(*self as $bits);
            }
        }
    )*};
}

// A signed number stands as its bits.
numbers!(u8 as u8, u16 as u16, u32 as u32, i16 as u16);

impl<T: Words + Copy, const N: usize> Words for [T; N] {
    const COUNT: usize = N * T::COUNT;

    #[inline]
    fn take(words: &[u64]) -> Self {
        std::array::from_fn(|i| T::take(&words[i * T::COUNT..]))
    }

    #[inline]
    fn put(&self, words: &mut [u64]) {
        for (i, value) in self.iter().enumerate() {
            value.put(&mut words[i * T::COUNT..]);
        }
    }
}

/// A struct whose fields stand one after another, in their order.
macro_rules! fields {
    ($(#[$doc:meta])* $name:ident { $($field:ident: $type:ty),* $(,)? }) => {
        $(#[$doc])*
        #[derive(Debug, Clone, Copy, Default, PartialEq, Eq)]
        pub struct $name {
            $(pub $field: $type),*
        }

        impl $crate::words::Words for $name {
            const COUNT: usize = 0 $(+ <$type as $crate::words::Words>::COUNT)*;

            #[inline]
            fn take(words: &[u64]) -> Self {
                let mut at = 0;
                $(
                    let $field = <$type as $crate::words::Words>::take(&words[at..]);
                    at += <$type as $crate::words::Words>::COUNT;
                )*
                debug_assert_eq!(at, Self::COUNT);
                Self { $($field),* }
            }

            #[inline]
            fn put(&self, words: &mut [u64]) {
                let mut at = 0;
                $(
                    $crate::words::Words::put(&self.$field, &mut words[at..]);
                    at += <$type as $crate::words::Words>::COUNT;
                )*
                debug_assert_eq!(at, Self::COUNT);
            }
        }
    };
}

/// An enum that stands as its case's number; the first case is the default.
macro_rules! cases {
    ($(#[$doc:meta])* $name:ident { $first:ident $(, $case:ident)* $(,)? }) => {
        $(#[$doc])*
        #[derive(Debug, Clone, Copy, Default, PartialEq, Eq)]
        pub enum $name {
            #[default]
            $first,
            $($case),*
        }

        impl $name {
            /// The cases in the order of their numbers.
            pub const CASES: &'static [Self] = &[Self::$first $(, Self::$case)*];
        }

        impl $crate::words::Words for $name {
            const COUNT: usize = 1;

            #[inline]
            fn take(words: &[u64]) -> Self {
                Self::CASES[words[0] as usize]
            }

            #[inline]
            fn put(&self, words: &mut [u64]) {
                words[0] = *self as u64;
            }
        }
    };
}

pub(crate) use {cases, fields};
