//! The memory that is lent to a read, and what a read must leave there.
use crate::whole::*;
use bidlomeqa::layout::*;

/// What stands in a word before a call.
pub const WORD: u64 = 0x5A5A_5A5A_5A5A_5A5A;
const QUAD: u32 = 0xA5A5_A5A5;
const UNIT: u16 = 0xA5A5;

/// Numbers beyond the lists and bytes beyond the output that are watched too.
pub const GUARD: usize = 8;

/// What is lent to a read.
#[derive(PartialEq)]
pub struct Lent {
    pub words: Vec<u64>,
    pub quads: Vec<u32>,
    pub units: Vec<u16>,
    pub lines: Vec<u32>,
    pub frames: Vec<u16>,
}

impl Lent {
    /// Full lists and words that hold something else.
    pub fn new() -> Self {
        Self {
            words: vec![WORD; RECORD_WORDS],
            quads: vec![QUAD; FULL[0] + GUARD],
            units: vec![UNIT; FULL[1] + GUARD],
            lines: vec![QUAD; FULL[2] + GUARD],
            frames: vec![UNIT; FULL[3] + GUARD],
        }
    }

    /// The pane as a read must leave it: the words of its kind, the first numbers of its lists.
    pub fn holds(&mut self, w: &Whole) {
        let end = WORDS_END[w.kind() as usize];
        self.words[..end].copy_from_slice(&w.words[..end]);
        self.quads[..w.quads.len()].copy_from_slice(&w.quads);
        self.units[..w.units.len()].copy_from_slice(&w.units);
        self.lines[..w.lines.len()].copy_from_slice(&w.lines);
        self.frames[..w.frames.len()].copy_from_slice(&w.frames);
    }

    /// Undoes `holds`.
    pub fn blank(&mut self, w: &Whole) {
        self.words.fill(WORD);
        self.quads[..w.quads.len()].fill(QUAD);
        self.units[..w.units.len()].fill(UNIT);
        self.lines[..w.lines.len()].fill(QUAD);
        self.frames[..w.frames.len()].fill(UNIT);
    }

    /// What differs.
    pub fn differences(&self, found: &Self) -> Vec<String> {
        let mut what = Vec::new();
        different("word", &self.words, &found.words, &mut what);
        different("quads", &self.quads, &found.quads, &mut what);
        different("units", &self.units, &found.units, &mut what);
        different("lines", &self.lines, &found.lines, &mut what);
        different("frames", &self.frames, &found.frames, &mut what);
        what
    }
}

/// Tells the first numbers that differ.
pub fn different<T: PartialEq + std::fmt::Debug>(name: &str, expected: &[T], found: &[T], what: &mut Vec<String>) {
    for (i, (e, f)) in expected.iter().zip(found).enumerate() {
        if e != f && what.len() < 8 {
            what.push(format!("{name} {i}: expected {e:?}, found {f:?}"));
        }
    }
}
