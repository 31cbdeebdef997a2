//! How far a read of a body looks, as Note 1 has it: the first place past all bytes that it read.
//!
//! Which bytes are read is taken from document 01's layouts, over the bytes of a body that nnbfl reads. nnbfl has no word for the figure, but can be asked
//! for one: the shortest buffer in which it still reads the body.
use crate::oracle::{cursor, number32};
use crate::panes::AnyPane;
use crate::whole::*;

/// What the read of a body looks at.
#[derive(Debug, PartialEq, Eq)]
pub struct Looked {
    /// The first place past all bytes that it reads.
    pub reach: usize,
    /// The furthest place that it seeks with nothing to read there; 0 where it seeks none.
    pub sought: usize,
}

/// What the read of a body that nnbfl reads looks at.
pub fn looked(kind: u64, data: &[u8], body: usize) -> Looked {
    let mut looked = Looked { reach: body + FIXED[kind as usize], sought: 0 };
    match kind {
        PIC1 => looked.picture(data, body),
        TXT1 => looked.text_box(data, body),
        WND1 => looked.window(data, body),
        _ => {}
    }
    looked
}

/// How many bytes the shortest front part of the buffer has in which nnbfl reads the body, where it reads it in the whole. What it reads in a part it reads in
/// every longer one, so the part is found by halving.
pub fn shortest(kind: u64, data: &[u8], body: usize) -> usize {
    let reads = |n: usize| AnyPane::parse(kind, &mut cursor(&data[..n], body)).is_ok();
    let (mut not_read, mut read) = (body, data.len());
    while read - not_read > 1 {
        let n = not_read + (read - not_read) / 2;
        if reads(n) {
            read = n;
        } else {
            not_read = n;
        }
    }
    read
}

fn number16(data: &[u8], at: usize) -> usize {
    usize::from(u16::from_le_bytes([data[at], data[at + 1]]))
}

impl Looked {
    // So many bytes at a place; where there are none it is sought alone.
    fn at(&mut self, place: usize, count: usize) {
        let furthest = if count > 0 { &mut self.reach } else { &mut self.sought };
        *furthest = (*furthest).max(place + count);
    }

    fn picture(&mut self, data: &[u8], body: usize) {
        let (quads, shape) = (usize::from(data[body + 94]), usize::from(data[body + 95] != 0));
        self.at(body, 96 + 32 * quads + 4 * shape);
    }

    fn text_box(&mut self, data: &[u8], body: usize) {
        let part = |offset: usize| Some(number32(data, body + offset)).filter(|o| *o != 0).map(|o| body - 8 + o);
        if let Some(text) = part(92) {
            self.at(text, 2 * (number16(data, body + 78) / 2));
        }
        if let Some(label) = part(120) {
            let length = data[label..].iter().position(|byte| *byte == 0).expect("nnbfl met the NUL");
            self.at(label, length + 1);
        }
        if let Some(lines) = part(152).filter(|_| number16(data, body + 86) >> 6 & 1 == 1) {
            self.at(lines, 1 + 8 * usize::from(data[lines]));
        }
    }

    fn window(&mut self, data: &[u8], body: usize) {
        let part = |at: usize| body - 8 + number32(data, at);
        let content = part(body + 96);
        self.at(content, 20 + 32 * usize::from(data[content + 18]));
        let (table, frames) = (part(body + 100), usize::from(data[body + 92]));
        self.at(table, 4 * frames);
        for frame in 0..frames {
            self.at(part(table + 4 * frame), 4);
        }
    }
}
