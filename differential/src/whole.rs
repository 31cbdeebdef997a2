//! A record in the flat layout with its lists and its label: what a write takes, and what a read gives.
use bidlomeqa::calls::WriteLists;
use bidlomeqa::layout::*;

/// A record's words, its lists and its label.
#[derive(Clone, PartialEq, Eq, Debug)]
pub struct Whole {
    pub words: [u64; RECORD_WORDS],
    pub quads: Vec<u32>,
    pub units: Vec<u16>,
    pub lines: Vec<u32>,
    pub frames: Vec<u16>,
    pub label: Vec<u8>,
}

/// The letters of the kinds, in the order of their numbers.
pub const LETTERS: [&[u8; 4]; 5] = [b"pan1", b"pic1", b"txt1", b"wnd1", b"ali1"];

/// How many bytes each kind's fixed part has.
pub const FIXED: [usize; 5] = [76, 96, 160, 104, 88];

/// Where each kind's words end in the record.
pub const WORDS_END: [usize; 5] = [OWN, SHAPE_INDEX + 1, LINES_COUNT + 1, CONTENT_QUADS + 1, IS_VERTICAL_ALIGNMENT + 1];

/// How long the lists of a read must be: quads, units, lines, frames.
pub const FULL: [usize; 4] = [2040, 32767, 510, 510];

pub const PAN1: u64 = 0;
pub const PIC1: u64 = 1;
pub const TXT1: u64 = 2;
pub const WND1: u64 = 3;
pub const ALI1: u64 = 4;

impl Default for Whole {
    fn default() -> Self {
        Self { words: [0; RECORD_WORDS], quads: Vec::new(), units: Vec::new(), lines: Vec::new(), frames: Vec::new(), label: Vec::new() }
    }
}

impl Whole {
    pub fn kind(&self) -> u64 {
        self.words[KIND]
    }

    pub fn is(&self, word: usize) -> bool {
        self.words[word] != 0
    }

    /// The counted bytes of the pane's name, where the count is at most 24.
    pub fn name(&self) -> Vec<u8> {
        self.bytes(NAME, self.words[NAME_COUNT].min(24) as usize)
    }

    /// The counted bytes of the user's name, where the count is at most 8.
    pub fn user(&self) -> Vec<u8> {
        self.bytes(USER, self.words[USER_COUNT].min(8) as usize)
    }

    fn bytes(&self, from: usize, count: usize) -> Vec<u8> {
        self.words[from..from + count].iter().map(|w| *w as u8).collect()
    }

    pub fn lists(&self) -> WriteLists<'_> {
        WriteLists { quads: &self.quads, units: &self.units, lines: &self.lines, frames: &self.frames, label: &self.label }
    }

    /// As document 01 compares it: what a write does not look at is blank.
    pub fn normal(&self) -> Self {
        let mut w = self.clone();
        let end = WORDS_END[w.kind() as usize];
        w.words[end..].fill(0);
        let (name, user) = (w.words[NAME_COUNT] as usize, w.words[USER_COUNT] as usize);
        w.words[NAME + name..USER_COUNT].fill(0);
        w.words[USER + user..TRANSLATION].fill(0);
        match w.kind() {
            PIC1 => {
                w.words[PICTURE_QUADS] = 0;
                w.words[SHAPE_INDEX] *= w.words[SHAPE_PRESENT];
            }
            WND1 => {
                w.words[FRAMES_COUNT] = 0;
                w.words[CONTENT_QUADS] = 0;
            }
            TXT1 => {
                w.words[LABEL_PLACE..LINES_PRESENT].fill(0);
                w.words[LINES_COUNT] = 0;
            }
            _ => {}
        }
        w.normal_lists();
        w
    }

    // Drops the lists that the kind lacks, and those of absent parts.
    fn normal_lists(&mut self) {
        let (kind, text_box) = (self.kind(), self.kind() == TXT1);
        if kind != PIC1 && kind != WND1 {
            self.quads.clear();
        }
        if kind != WND1 {
            self.frames.clear();
        }
        if !(text_box && self.is(TEXT_PRESENT)) {
            self.units.clear();
        }
        if !(text_box && self.is(LINES_PRESENT)) {
            self.lines.clear();
        }
        if !(text_box && self.is(LABEL_PRESENT)) {
            self.label.clear();
        }
    }
}
