//! Faults put in on purpose between the library and the comparison, to see that it reports them.
use crate::oracle::{refused, Outcome};
use crate::whole::*;
use bidlomeqa::layout::*;

/// What a call left, where a fault can change it.
pub struct Left<'a> {
    pub code: &'a mut u64,
    pub answer: &'a mut [u64; ANSWER_WORDS],
    pub words: &'a mut [u64],
    pub quads: &'a mut [u32],
    pub units: &'a mut [u16],
    pub lines: &'a mut [u32],
    pub frames: &'a mut [u16],
    /// The output of a write, and what stands there before it.
    pub out: &'a mut [u8],
    pub before: &'a [u8],
    /// What was written: its kind, whether it has a header, and where its body stands.
    pub kind: u64,
    pub section: bool,
    pub body: usize,
    /// What 19 would tell of the section that was read, if it were looked for before 7.
    pub past: Option<Outcome>,
}

impl<'a> Left<'a> {
    /// A call that left nothing but its answer.
    pub fn answer(code: &'a mut u64, answer: &'a mut [u64; ANSWER_WORDS]) -> Self {
        let (words, quads, units, lines, frames) = (&mut [], &mut [], &mut [], &mut [], &mut []);
        Self { code, answer, words, quads, units, lines, frames, out: &mut [], before: &[], kind: 0, section: false, body: 0, past: None }
    }
}

/// Changes what a call left; false where it finds nothing to change.
type Change = fn(&mut Left) -> bool;

/// The faults, by name.
pub const FAULTS: [(&str, Change); 45] = [
    ("swapped-field", |l| pane(l) && swap(l.words, TRANSLATION, TRANSLATION + 1)),
    ("swapped-sizes", |l| pane(l) && swap(l.words, SCALE, SIZE)),
    ("swapped-colors", |l| kind(l, PIC1) && swap(l.words, PICTURE_COLORS + 4, PICTURE_COLORS + 8)),
    ("swapped-origin", |l| kind(l, TXT1) && swap(l.words, ORIGIN, ORIGIN + 1)),
    ("swapped-sides", |l| kind(l, WND1) && swap(l.words, INFLATION + 1, FRAME_SIZE + 1)),
    ("lost-flag", |l| kind(l, TXT1) && clear(l.words, TEXT_FLAGS + 11)),
    ("lost-measure", |l| kind(l, TXT1) && clear(l.words, MEASURE_KIND)),
    ("quieted-nan", |l| pane(l) && quieted(l.words)),
    ("lost-minus", |l| pane(l) && l.words[ROTATION] == 0x8000_0000 && clear(l.words, ROTATION)),
    ("empty-label-absent", |l| kind(l, TXT1) && l.words[LABEL_LENGTH] == 0 && clear(l.words, LABEL_PRESENT)),
    ("label-place", |l| kind(l, TXT1) && l.words[LABEL_PRESENT] == 1 && add(&mut l.words[LABEL_PLACE])),
    ("label-length", |l| kind(l, TXT1) && l.words[LABEL_PRESENT] == 1 && add(&mut l.words[LABEL_LENGTH])),
    ("record-after-refusal", |l| *l.code == REFUSED && !l.words.is_empty() && add(&mut l.words[ALPHA])),
    ("words-after-kind", |l| kind(l, ALI1) && add(&mut l.words[RECORD_WORDS - 1])),
    ("changed-place", |l| *l.code == PANE && add(&mut l.answer[0])),
    ("changed-next", |l| *l.code == PANE && l.answer[1] != 0 && add(&mut l.answer[1])),
    ("changed-reach", |l| pane(l) && add(&mut l.answer[2])),
    ("reach-for-next", |l| pane(l) && swap(l.answer, 1, 2)),
    ("reach-is-end", |l| pane(l) && copied(l.answer, 0, 2)),
    ("nul-not-counted", |l| kind(l, TXT1) && label_last(l) && subtract(&mut l.answer[2], 1)),
    ("reserve-not-counted", |l| kind(l, ALI1) && subtract(&mut l.answer[2], 2)),
    ("changed-number", |l| *l.code == REFUSED && add(&mut l.answer[0])),
    ("changed-figure-a", |l| *l.code == REFUSED && add(&mut l.answer[1])),
    ("changed-figure-b", |l| *l.code == REFUSED && add(&mut l.answer[2])),
    ("refused-though-read", |l| *l.code == PANE && set(l.code, REFUSED)),
    ("19-where-it-just-keeps", |l| pane(l) && l.answer[1] == l.answer[2] && given(l, refused(19, l.answer[2] as usize, l.answer[1] as usize))),
    ("19-with-its-figures-exchanged", |l| nineteen(l) && swap(l.answer, 1, 2)),
    ("19-before-7", |l| *l.code == REFUSED && l.answer[0] == 7 && l.past.is_some_and(|no| given(l, no))),
    ("19-not-made", |l| nineteen(l) && given(l, (PANE, [l.answer[2], l.answer[2], l.answer[1]]))),
    ("19-of-a-body", |l| body(l) && l.answer[0] < l.answer[2] && given(l, refused(19, l.answer[2] as usize, l.answer[0] as usize))),
    ("filled-before-19", |l| nineteen(l) && add16(l.units, 0)),
    ("quads-filled-before-19", |l| nineteen(l) && add32(l.quads, 7)),
    ("record-before-19", |l| nineteen(l) && add(&mut l.words[KIND])),
    ("quad-changed", |l| kind(l, WND1) && l.words[CONTENT_QUADS] > 0 && add32(l.quads, 7)),
    ("lines-interleaved", |l| kind(l, TXT1) && l.words[LINES_COUNT] > 1 && swap(l.lines, 1, 2)),
    ("unit-changed", |l| kind(l, TXT1) && l.words[TEXT_LENGTH] > 3 && l.words[TEXT_PRESENT] == 1 && add16(l.units, 1)),
    ("frame-changed", |l| kind(l, WND1) && l.words[FRAMES_COUNT] > 0 && add16(l.frames, 1)),
    ("list-filled-on-refusal", |l| *l.code == REFUSED && !l.units.is_empty() && add16(l.units, 0)),
    ("list-tail", |l| pane(l) && add32(l.quads, FULL[0] - 1)),
    ("changed-byte", |l| *l.code == WRITTEN && add8(l.out, l.answer[0] as usize - 1)),
    ("byte-after-end", |l| *l.code == WRITTEN && l.out.len() > l.answer[0] as usize && add8(l.out, l.answer[0] as usize)),
    ("lost-write", |l| *l.code == WRITTEN && lost(l)),
    ("part-moved", |l| *l.code == PART && add(&mut l.answer[1])),
    ("part-of-the-other", |l| *l.code == PART && add(&mut l.answer[0])),
    ("changed-end", |l| *l.code == WRITTEN && add(&mut l.answer[0])),
];

/// The faults of a big-endian run alone: bytes that were turned and must not be, and numbers that were left little-endian.
pub const TURNED: [(&str, Change); 18] = [
    ("letters-turned", |l| header(l) && turn(l.out, l.body - 8, 4)),
    ("size-left", |l| header(l) && turn(l.out, l.body - 4, 4)),
    ("name-turned", |l| written(l) && turn(l.out, l.body + 4, 24)),
    ("float-left", |l| written(l) && turn(l.out, l.body + 36, 4)),
    ("colours-turned", |l| wrote(l, PIC1) && turn(l.out, l.body + 76, 4)),
    ("material-left", |l| wrote(l, PIC1) && turn(l.out, l.body + 92, 2)),
    ("text-flags-left", |l| wrote(l, TXT1) && turn(l.out, l.body + 86, 2)),
    ("unit-left", |l| wrote(l, TXT1) && units(l) && turn(l.out, l.body + 160, 2)),
    ("side-left", |l| wrote(l, WND1) && turn(l.out, l.body + 78, 2)),
    ("offset-left", |l| wrote(l, WND1) && turn(l.out, l.body + 96, 4)),
    ("quad-left", |l| wrote(l, WND1) && l.out[l.body + 122] > 0 && turn(l.out, l.body + 124, 4)),
    ("direction-left", |l| wrote(l, ALI1) && turn(l.out, l.body + 76, 4)),
    ("read-float-left", |l| pane(l) && swapped(l.words, SIZE, |word| u64::from((word as u32).swap_bytes()))),
    ("read-colours-turned", |l| kind(l, PIC1) && turn(l.words, PICTURE_COLORS, 4)),
    ("read-unit-left", |l| kind(l, TXT1) && l.words[TEXT_PRESENT] == 1 && l.words[TEXT_LENGTH] > 1 && swapped(l.units, 0, u16::swap_bytes)),
    ("read-line-left", |l| kind(l, TXT1) && l.words[LINES_COUNT] > 0 && swapped(l.lines, 0, u32::swap_bytes)),
    ("read-quad-left", |l| kind(l, PIC1) && l.words[PICTURE_QUADS] > 0 && swapped(l.quads, 0, u32::swap_bytes)),
    ("read-frame-left", |l| kind(l, WND1) && l.words[FRAMES_COUNT] > 0 && swapped(l.frames, 0, u16::swap_bytes)),
];

/// The faults that a run in the order is tried with.
pub fn faults(order: u64) -> impl Iterator<Item = &'static (&'static str, Change)> {
    FAULTS.iter().chain(TURNED.iter().filter(move |_| order == BIG))
}

fn written(l: &Left) -> bool {
    *l.code == WRITTEN
}

fn header(l: &Left) -> bool {
    written(l) && l.section
}

fn wrote(l: &Left, kind: u64) -> bool {
    written(l) && l.kind == kind
}

// Whether a text box was written with units: its text offset is not 0, nor is half its text_length.
fn units(l: &Left) -> bool {
    l.out[l.body + 95] != 0 && (l.out[l.body + 78], l.out[l.body + 79]) > (0, 1)
}

// The numbers the other way round; false where they are the same so.
fn turn<T: PartialEq>(list: &mut [T], at: usize, count: usize) -> bool {
    let part = &mut list[at..at + count];
    let same = part.iter().eq(part.iter().rev());
    part.reverse();
    !same
}

// The number with its bytes turned; false where it is the same so.
fn swapped<T: PartialEq + Copy>(list: &mut [T], at: usize, turned: fn(T) -> T) -> bool {
    let before = list[at];
    list[at] = turned(before);
    list[at] != before
}

fn pane(l: &Left) -> bool {
    *l.code == PANE
}

// A pane that a body call read: it tells no next section.
fn body(l: &Left) -> bool {
    pane(l) && l.answer[1] == 0
}

fn nineteen(l: &Left) -> bool {
    *l.code == REFUSED && l.answer[0] == 19
}

// Another answer in the place of this one.
fn given(l: &mut Left, (code, answer): Outcome) -> bool {
    (*l.code, *l.answer) = (code, answer);
    true
}

fn kind(l: &Left, kind: u64) -> bool {
    pane(l) && l.words[KIND] == kind
}

fn swap<T: PartialEq>(list: &mut [T], a: usize, b: usize) -> bool {
    list.swap(a, b);
    list[a] != list[b]
}

fn copied(words: &mut [u64], from: usize, to: usize) -> bool {
    let word = words[from];
    std::mem::replace(&mut words[to], word) != word
}

fn clear(words: &mut [u64], at: usize) -> bool {
    std::mem::take(&mut words[at]) != 0
}

fn add(word: &mut u64) -> bool {
    *word = word.wrapping_add(1);
    true
}

fn subtract(word: &mut u64, less: u64) -> bool {
    *word = word.wrapping_sub(less);
    true
}

fn add32(list: &mut [u32], at: usize) -> bool {
    list[at] = list[at].wrapping_add(1);
    true
}

fn add16(list: &mut [u16], at: usize) -> bool {
    list[at] = list[at].wrapping_add(1);
    true
}

fn add8(list: &mut [u8], at: usize) -> bool {
    list[at] = list[at].wrapping_add(1);
    true
}

fn set(code: &mut u64, to: u64) -> bool {
    *code = to;
    true
}

// Whether the NUL of a label is the last byte that a read looked at.
fn label_last(l: &Left) -> bool {
    l.words[LABEL_PRESENT] == 1 && l.answer[2] == l.words[LABEL_PLACE] + l.words[LABEL_LENGTH] + 1
}

// A signalling NaN made quiet, as a move through a float register of another machine does.
fn quieted(words: &mut [u64]) -> bool {
    let signalling = |w: u64| w & 0x7F80_0000 == 0x7F80_0000 && w & 0x007F_FFFF != 0 && w & 0x0040_0000 == 0;
    match words[TRANSLATION..OWN].iter_mut().find(|w| signalling(**w)) {
        Some(word) => {
            *word |= 0x0040_0000;
            true
        }
        None => false,
    }
}

fn lost(l: &mut Left) -> bool {
    let same = l.out == l.before;
    l.out.copy_from_slice(l.before);
    !same
}

/// The fault of a run, if one was asked for: made in one of `every` calls where it applies.
pub struct Fault {
    change: Option<Box<dyn Fn(&mut Left) -> bool>>,
    every: u64,
    calls: u64,
    pub made: u64,
}

impl Fault {
    pub fn none() -> Self {
        Self { change: None, every: 1, calls: 0, made: 0 }
    }

    fn of(change: impl Fn(&mut Left) -> bool + 'static, every: u64) -> Self {
        Self { change: Some(Box::new(change)), every, calls: 0, made: 0 }
    }

    /// Whether there is one.
    pub fn is_some(&self) -> bool {
        self.change.is_some()
    }

    /// The fault of this name, if a run in the order is tried with it.
    pub fn named(order: u64, name: &str, every: u64) -> Option<Self> {
        let (_, change) = faults(order).find(|(n, _)| *n == name)?;
        Some(Self::of(change, every))
    }

    /// One word of the record of every pane that is read.
    pub fn word(at: usize) -> Self {
        Self::of(move |l| pane(l) && add(&mut l.words[at]), 1)
    }

    /// One byte of every output that is written.
    pub fn byte(at: usize) -> Self {
        Self::of(move |l| *l.code == WRITTEN && add8(l.out, at), 1)
    }

    pub fn apply(&mut self, mut left: Left) {
        let Some(change) = &self.change else { return };
        self.calls += 1;
        if self.calls % self.every == 0 && change(&mut left) {
            self.made += 1;
        }
    }
}
