//! Big-endian bytes from little-endian ones: every number of two or four bytes turned the other way round, as Note 6 has it.
//!
//! Letters, strings, colours and single bytes stay as they are. Which bytes are numbers is taken from document 01's layouts, in the order in which a
//! read goes through them. Where that read stops the rest stays as it is: the sections after one whose pane reads past its end, which refusal 19 stops, stay too.
//! Bytes have no mirror where two parts share a byte and want it different.
use crate::oracle::LIMIT;
use crate::whole::*;

/// All bytes, those of the body at `place` turned; none where they have no mirror.
pub fn body(kind: u64, data: &[u8], place: usize) -> Option<Vec<u8>> {
    let mut walk = Walk::new(data);
    if place >= 8 && data.len() <= LIMIT && walk.seek(place).is_some() {
        walk.body(kind);
    }
    walk.turned()
}

/// All bytes, those of the section at `place` turned; none where they have no mirror.
pub fn section(data: &[u8], place: usize) -> Option<Vec<u8>> {
    let mut walk = Walk::new(data);
    walk.section(place);
    walk.turned()
}

/// All bytes, those of every section from 0 on turned, as far as they are read; none where they have no mirror.
pub fn strip(data: &[u8]) -> Option<Vec<u8>> {
    let mut walk = Walk::new(data);
    let mut place = 0;
    while let Some(next) = walk.section(place) {
        place = next;
    }
    walk.turned()
}

// A read of little-endian bytes that turns what it goes through. Each step gives none where the read stops.
struct Walk<'a> {
    data: &'a [u8],
    at: usize,
    // The first place past all bytes that the section's read went through.
    reach: usize,
    turned: Vec<u8>,
    settled: Vec<bool>,
    torn: bool,
}

impl<'a> Walk<'a> {
    fn new(data: &'a [u8]) -> Self {
        Self { data, at: 0, reach: 0, turned: data.to_vec(), settled: vec![false; data.len()], torn: false }
    }

    fn turned(self) -> Option<Vec<u8>> {
        (!self.torn).then_some(self.turned)
    }

    fn put(&mut self, at: usize, byte: u8) {
        self.torn |= self.settled[at] && self.turned[at] != byte;
        self.turned[at] = byte;
        self.settled[at] = true;
    }

    fn seek(&mut self, to: usize) -> Option<()> {
        self.at = to;
        (to <= self.data.len()).then_some(())
    }

    // Turns the number of `width` bytes that stands here, and gives it. One of a single byte is its own mirror.
    fn number(&mut self, width: usize) -> Option<usize> {
        let bytes = self.data.get(self.at..self.at + width)?;
        let mut number = 0;
        for (i, byte) in bytes.iter().rev().enumerate() {
            self.put(self.at + i, *byte);
            number = 256 * number + usize::from(*byte);
        }
        self.at += width;
        self.reach = self.reach.max(self.at);
        Some(number)
    }

    fn numbers(&mut self, count: usize, width: usize) -> Option<()> {
        (0..count).try_for_each(|_| self.number(width).map(drop))
    }

    // Letters, strings, colours and single bytes: as many as there are.
    fn bytes(&mut self, count: usize) -> Option<()> {
        self.numbers(count, 1)
    }

    // Gives the next section's place, where the pane keeps to its section.
    fn section(&mut self, place: usize) -> Option<usize> {
        if self.data.len() > LIMIT || place % 4 != 0 {
            return None;
        }
        self.seek(place)?;
        self.reach = place;
        self.bytes(4)?;
        let size = self.number(4)?;
        if size < 8 || size % 4 != 0 || size > self.data.len() - place {
            return None;
        }
        if let Some(kind) = LETTERS.iter().position(|l| self.data[place..].starts_with(&l[..])) {
            self.body(kind as u64)?;
            if self.reach > place + size {
                return None;
            }
        }
        Some(place + size)
    }

    fn body(&mut self, kind: u64) -> Option<()> {
        let section = self.at - 8;
        self.base()?;
        match kind {
            PIC1 => self.picture(),
            TXT1 => self.text_box(section),
            WND1 => self.window(section),
            ALI1 => self.alignment(),
            _ => Some(()),
        }
    }

    fn base(&mut self) -> Option<()> {
        self.bytes(4)?; // flags, position, alpha, flag_ex
        self.bytes(24)?; // name
        self.bytes(8)?; // user name
        self.numbers(10, 4) // translation, rotation, scale, size
    }

    // A picture's own bytes up to its quads, and a window's content, are laid out alike: gives the byte after the quad count.
    fn quads(&mut self) -> Option<usize> {
        self.bytes(16)?; // four colours
        self.number(2)?; // material
        let count = self.number(1)?;
        let byte = self.number(1)?;
        self.numbers(8 * count, 4)?;
        Some(byte)
    }

    fn picture(&mut self) -> Option<()> {
        let shape = self.quads()?;
        self.numbers(usize::from(shape != 0), 4) // shape index
    }

    fn text_box(&mut self, section: usize) -> Option<()> {
        self.number(2)?; // buffer size
        let text_length = self.number(2)?;
        self.numbers(2, 2)?; // material, font
        self.bytes(2)?; // origin, alignment
        let flags = self.number(2)?;
        self.number(4)?; // tilt
        let text = self.number(4)?;
        self.bytes(8)?; // top and bottom colour
        self.numbers(4, 4)?; // font measure, character and line space
        let label = self.number(4)?;
        self.numbers(4, 4)?; // shadow translation and size
        self.bytes(8)?; // two colours
        self.number(4)?; // shadow tilt
        let lines = self.number(4)?;
        self.number(4)?; // per-character offset
        if text != 0 {
            self.seek(section + text)?;
            self.numbers(text_length / 2, 2)?;
        }
        if label != 0 {
            self.seek(section + label)?;
            while self.number(1)? != 0 {}
        }
        if flags >> 6 & 1 == 1 && lines != 0 {
            self.seek(section + lines)?;
            let count = self.number(1)?;
            self.numbers(2 * count, 4)?; // all offsets, then all widths
        }
        Some(())
    }

    fn window(&mut self, section: usize) -> Option<()> {
        self.numbers(8, 2)?; // inflation, frame size
        let count = self.number(1)?;
        self.number(1)?; // flags
        self.number(2)?; // 0
        let content = self.number(4)?;
        let table = self.number(4)?;
        self.seek(section + content)?;
        self.quads()?;
        self.seek(section + table)?;
        let mut frames = Vec::new();
        for _ in 0..count {
            frames.push(self.number(4)?);
        }
        for frame in frames {
            self.seek(section + frame)?;
            self.number(2)?; // material
            self.bytes(2)?; // flip, 0
        }
        Some(())
    }

    fn alignment(&mut self) -> Option<()> {
        self.numbers(2, 4)?; // direction, margin
        self.bytes(2)?; // two bools
        self.number(2).map(drop) // 0
    }
}
