//! Why a call is refused.
use std::fmt;

/// The rows of document 01's table of refusals, 1 to 16, and 19 of document 02, each with its figures; docs/REFUSALS.md tells what each
/// means. `PastSection` is 19: the pane reads bytes past its section, which ends at `end`, as far as `reach`. A body read knows of no section and never gives it.
#[derive(Debug, Clone, Copy, PartialEq, Eq)]
pub enum Refusal {
    TooLong { length: u64 },
    BadPlace { place: u64 },
    ShortList { list: u64, need: u64 },
    UnexpectedEof { offset: u64, requested: u64 },
    NoNul { place: u64 },
    PerCharacter { value: u64 },
    IllFormedUtf8 { place: u64, which: u64 },
    SectionSize { place: u64, size: u64 },
    BadName { which: u64 },
    Reserve0 { value: u64 },
    ListLength { list: u64, length: u64 },
    BadFlip { frame: u64, flip: u64 },
    TextLength { units: u64, text_length: u64 },
    IllFormedUtf16 { units: u64 },
    NoLineBit,
    OutputEnd { end: u64, length: u64 },
    PastSection { reach: u64, end: u64 },
}

impl Refusal {
    /// The refusal of this number with these figures, if there is one of the number.
    pub fn of(number: u64, a: u64, b: u64) -> Option<Self> {
        Some(match number {
            1 => Self::TooLong { length: a },
            2 => Self::BadPlace { place: a },
            3 => Self::ShortList { list: a, need: b },
            4 => Self::UnexpectedEof { offset: a, requested: b },
            5 => Self::NoNul { place: a },
            6 => Self::PerCharacter { value: a },
            7 => Self::IllFormedUtf8 { place: a, which: b },
            8 => Self::SectionSize { place: a, size: b },
            9 => Self::BadName { which: a },
            10 => Self::Reserve0 { value: a },
            11 => Self::ListLength { list: a, length: b },
            12 => Self::BadFlip { frame: a, flip: b },
            13 => Self::TextLength { units: a, text_length: b },
            14 => Self::IllFormedUtf16 { units: a },
            15 => Self::NoLineBit,
            16 => Self::OutputEnd { end: a, length: b },
            19 => Self::PastSection { reach: a, end: b },
            _ => return None,
        })
    }

    /// The number, document 01's or document 02's, and the figures a and b.
    pub fn figures(self) -> (u64, u64, u64) {
        match self {
            Self::TooLong { length } => (1, length, 0),
            Self::BadPlace { place } => (2, place, 0),
            Self::ShortList { list, need } => (3, list, need),
            Self::UnexpectedEof { offset, requested } => (4, offset, requested),
            Self::NoNul { place } => (5, place, 0),
            Self::PerCharacter { value } => (6, value, 0),
            Self::IllFormedUtf8 { place, which } => (7, place, which),
            Self::SectionSize { place, size } => (8, place, size),
            Self::BadName { which } => (9, which, 0),
            Self::Reserve0 { value } => (10, value, 0),
            Self::ListLength { list, length } => (11, list, length),
            Self::BadFlip { frame, flip } => (12, frame, flip),
            Self::TextLength { units, text_length } => (13, units, text_length),
            Self::IllFormedUtf16 { units } => (14, units, 0),
            Self::NoLineBit => (15, 0, 0),
            Self::OutputEnd { end, length } => (16, end, length),
            Self::PastSection { reach, end } => (19, reach, end),
        }
    }

    /// The number, document 01's or document 02's.
    pub fn number(self) -> u64 {
        self.figures().0
    }
}

fn list(n: u64) -> &'static str {
    ["list", "quads", "units", "lines", "frames"][(n as usize).min(4)]
}

fn string(n: u64) -> &'static str {
    ["string", "pane name", "user name", "label"][(n as usize).min(3)]
}

impl fmt::Display for Refusal {
    fn fmt(&self, f: &mut fmt::Formatter) -> fmt::Result {
        match *self {
            Self::TooLong { length } => write!(f, "the buffer or label has {length} bytes; at most 16777216 are taken"),
            Self::BadPlace { place } => {
                write!(f, "{place} is no place for this call: a section begins at a multiple of 4, a body at 8 or later, neither beyond the buffer")
            }
            Self::ShortList { list: n, need } => write!(f, "the lent list of {} is too short: it needs {need} numbers", list(n)),
            Self::UnexpectedEof { offset, requested } => write!(f, "the bytes run out: {requested} asked for at {offset}"),
            Self::NoNul { place } => write!(f, "the label at {place} meets no NUL before the end of the buffer"),
            Self::PerCharacter { value } => write!(f, "the text box has a per-character transform at offset {value}, which is not read"),
            Self::IllFormedUtf8 { place, which } => write!(f, "the {} at {place} is ill-formed UTF-8", string(which)),
            Self::SectionSize { place, size } => write!(f, "the section size {size} at {place} is below 8, no multiple of 4, or passes the buffer"),
            Self::BadName { which } => write!(f, "the {} is too long, has a NUL, or is ill-formed UTF-8", string(which)),
            Self::Reserve0 { value } => write!(f, "reserve0 is {value}; at most 31 fit"),
            Self::ListLength { list: n, length } => {
                write!(f, "the list of {} has {length} numbers: not a whole count of entries, or more than 255 of them", list(n))
            }
            Self::BadFlip { frame, flip } => write!(f, "frame {frame} has the flip {flip}; at most 5 is known"),
            Self::TextLength { units, text_length } => {
                write!(f, "the text has {units} units, but its text_length {text_length} says {}", text_length / 2)
            }
            Self::IllFormedUtf16 { units } => write!(f, "the text is ill-formed UTF-16 at unit {units}"),
            Self::NoLineBit => write!(f, "there is a line table, but the flag is_line_transform is not set"),
            Self::OutputEnd { end, length } => write!(f, "what is written ends at {end}, and the output has {length} bytes"),
            Self::PastSection { reach, end } => write!(f, "the pane looks as far as {reach}, past the end of its section at {end}"),
        }
    }
}

impl std::error::Error for Refusal {}
