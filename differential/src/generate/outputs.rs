//! Writes of bodies and of single sections.
use super::edges::{BYTES, UNITS};
use super::records::{self, put_pane_name, put_user_name};
use crate::compare::Comparison;
use crate::oracle::{self, LIMIT};
use crate::random::{Random, FLOATS};
use crate::whole::*;
use bidlomeqa::layout::*;

const KINDS: [u64; 5] = [PAN1, PIC1, TXT1, WND1, ALI1];

const ROOM: usize = 1024;

// A record of the kind with few numbers.
fn plain(r: &mut Random, kind: u64) -> Whole {
    let mut w = records::good(r, kind);
    w.quads.truncate(8);
    w.lines.truncate(4);
    w.frames.truncate(4);
    w.units = vec![0x41, 0x42];
    w.words[TEXT_LENGTH] = 5;
    w
}

// How many values a word has, where they are few.
fn values(kind: u64, word: usize) -> usize {
    match (kind, word) {
        (_, 1..=8 | 14..=16) => 2,
        (_, 9..=12) => 3,
        (_, 13 | 17) => 256,
        (PIC1, 62..=77) | (WND1, 75..=90) => 256,
        (PIC1, 80) => 2,
        (TXT1, 66 | 67) => 3,
        (TXT1, 68) => 4,
        (TXT1, 83 | 110 | 111) => 2,
        (TXT1, 87..=94 | 101..=108) => 256,
        (WND1, 70 | 71 | 73) | (ALI1, 64 | 65) => 2,
        (WND1, 72) => 3,
        _ => 0,
    }
}

/// Every value of every field of one byte or less.
pub fn bytes(c: &mut Comparison, r: &mut Random) {
    for kind in KINDS {
        for word in 1..WORDS_END[kind as usize] {
            let mut w = plain(r, kind);
            for value in 0..values(kind, word) {
                w.words[word] = value as u64;
                c.write(&w, false, 8 + value % 4, ROOM);
                c.write(&w, true, 4 * (value % 3), ROOM);
            }
        }
    }
}

/// All text flags, of a size and of a scale; a line table with bit 6 set and, refused, with it clear.
pub fn flags(c: &mut Comparison, r: &mut Random) {
    let mut w = plain(r, TXT1);
    for flags in 0..1 << 15 {
        for bit in 0..15 {
            w.words[TEXT_FLAGS + bit] = flags >> bit & 1;
        }
        w.words[LINES_PRESENT] = flags >> 3 & 1;
        c.write(&w, false, 8 + flags as usize % 4, ROOM);
    }
}

/// Each class of floats in each word of a float, and in each list.
pub fn floats(c: &mut Comparison, r: &mut Random) {
    for kind in KINDS {
        let own: &[usize] = match kind {
            TXT1 => &[84, 85, 86, 95, 96, 97, 98, 99, 100, 109],
            ALI1 => &[63],
            _ => &[],
        };
        for bits in FLOATS {
            for word in (TRANSLATION..OWN).chain(own.iter().copied()) {
                let mut w = plain(r, kind);
                w.words[word] = u64::from(bits);
                c.write(&w, false, 8, ROOM);
            }
            for i in 0..8 {
                let mut w = plain(r, kind);
                w.quads = vec![0x3F80_0000; 8];
                w.quads[i] = bits;
                w.words[LINES_PRESENT] = u64::from(kind == TXT1);
                w.lines = vec![0x3F80_0000; 4];
                w.lines[i % 4] = bits;
                if kind == TXT1 {
                    w.words[TEXT_FLAGS + 6] = 1;
                }
                c.write(&w, true, 0, ROOM);
            }
        }
    }
}

/// Names and labels at the edges of UTF-8, with NULs, and of every length.
pub fn names(c: &mut Comparison, r: &mut Random) {
    let mut w = plain(r, TXT1);
    w.words[LABEL_PRESENT] = 1;
    for a in BYTES {
        for b in BYTES {
            for d in BYTES {
                for n in 0..3 {
                    let text = [a, b, d];
                    let mut w = w.clone();
                    match n {
                        0 => put_pane_name(&mut w, &text),
                        1 => put_user_name(&mut w, &text),
                        _ => w.label = text.to_vec(),
                    }
                    c.write(&w, false, 8, ROOM);
                }
            }
        }
    }
    for n in 0..40 {
        for kind in KINDS {
            let mut w = plain(r, kind);
            put_pane_name(&mut w, &vec![0x61; n]);
            c.write(&w, n % 2 == 0, 8, ROOM);
            let mut w = plain(r, kind);
            put_user_name(&mut w, &vec![0x61; n]);
            c.write(&w, n % 2 == 0, 8, ROOM);
            w.words[USER_COUNT] = u64::MAX - n as u64;
            c.write(&w, n % 2 == 0, 8, ROOM);
        }
        w.label = vec![0x61; n];
        c.write(&w, false, 8 + n % 4, ROOM);
    }
}

/// Edge units, and units that are not as many as the text length says.
pub fn utf16(c: &mut Comparison, r: &mut Random) {
    let mut w = plain(r, TXT1);
    w.words[TEXT_PRESENT] = 1;
    for i in 0..UNITS.len().pow(3) {
        for count in 1..4 {
            w.units = (0..count).map(|n| UNITS[i / UNITS.len().pow(n) % UNITS.len()]).collect();
            w.words[TEXT_LENGTH] = u64::from(2 * count + i as u32 % 2);
            c.write(&w, false, 8, ROOM);
        }
    }
    for length in 0..40 {
        for count in 0..20 {
            w.units = vec![0x41; count];
            w.words[TEXT_LENGTH] = length;
            c.write(&w, false, 9, ROOM);
        }
    }
    for length in [65533, 65534, 65535] {
        for count in [32765, 32766, 32767, 32768] {
            w.units = vec![0x41; count];
            w.words[TEXT_LENGTH] = length;
            c.write(&w, true, 4, 70_000);
        }
    }
}

/// Lists of every length up to their limits and a little more; flips and reserve0 beyond theirs.
pub fn counts(c: &mut Comparison, r: &mut Random) {
    for n in (0..=24).chain(2030..2060).chain([4080, 4096]) {
        for kind in [PIC1, WND1] {
            let mut w = plain(r, kind);
            w.quads = vec![0x7FA0_0001; n];
            c.write(&w, n % 2 == 0, 12, 10_000);
        }
    }
    for n in (0..=24).chain(500..520).chain([1020, 1024]) {
        let mut w = plain(r, TXT1);
        w.words[LINES_PRESENT] = 1;
        w.words[TEXT_FLAGS + 6] = 1;
        w.lines = vec![0x7FA0_0001; n];
        c.write(&w, n % 2 == 0, 12, 10_000);
        let mut w = plain(r, WND1);
        w.frames = vec![3; n];
        c.write(&w, n % 2 == 0, 12, 10_000);
    }
    for flip in (0..20).chain([255, 256, 261, 65535]) {
        for frame in 0..4 {
            let mut w = plain(r, WND1);
            w.frames = vec![1; 8];
            w.frames[2 * frame + 1] = flip;
            c.write(&w, false, 8 + frame, ROOM);
        }
    }
}

/// Every word of every kind at its bound and beyond.
pub fn bounds(c: &mut Comparison, r: &mut Random) {
    for kind in KINDS {
        for word in 1..RECORD_WORDS {
            let w = plain(r, kind);
            for value in [w.words[word] + (1 << 16), w.words[word] + (1 << 32), u64::MAX, oracle::bound(kind, word).unwrap_or(0)] {
                let mut w = w.clone();
                w.words[word] = value;
                c.write(&w, false, 8, ROOM);
                c.write(&w, true, 8, 0);
                w.words[r.below(RECORD_WORDS - 1) + 1] = value;
                c.write(&w, true, 8, ROOM);
            }
        }
    }
}

/// Every record into outputs of every length up to its end and a little more, at each residue.
pub fn room(c: &mut Comparison, r: &mut Random) {
    for kind in KINDS {
        for place in 0..16 {
            let w = plain(r, kind);
            for length in 0..place + 360 {
                c.write(&w, false, place, length);
                c.write(&w, true, place, length);
            }
        }
        let w = plain(r, kind);
        for place in [1 << 20, 1 << 32, usize::MAX - 3, usize::MAX] {
            c.write(&w, false, place, ROOM);
            c.write(&w, true, place, ROOM);
        }
    }
}

/// Outputs and labels at the limit of 16,777,216 bytes.
pub fn large(c: &mut Comparison, r: &mut Random) {
    for kind in KINDS {
        let w = plain(r, kind);
        c.write(&w, true, 0, LIMIT);
        c.write(&w, true, 0, LIMIT + 1);
        c.write(&w, true, LIMIT, LIMIT);
        c.write(&w, false, LIMIT - 100, LIMIT);
        c.write(&w, true, LIMIT - 512, LIMIT);
    }
    let mut w = plain(r, TXT1);
    w.words[LABEL_PRESENT] = 1;
    for length in [LIMIT + 1, LIMIT, LIMIT - 512] {
        w.label = vec![0x61; length];
        c.write(&w, true, 0, LIMIT);
        c.write(&w, false, 8, ROOM);
    }
}

/// A random record at a random place in an output with and without room, read back where it was written.
pub fn random(c: &mut Comparison, r: &mut Random) {
    let w = records::any(r);
    let section = r.once_in(2);
    let place = if section { 4 * r.below(6) } else { 8 + r.below(12) };
    let length = match r.below(4) {
        0 => r.below(400),
        1 => 400 + r.below(800),
        _ => 20_000,
    };
    let outcome = c.write(&w, section, place, length);
    if outcome.0 == WRITTEN {
        let end = outcome.1[0] as usize;
        let data = c.model(end);
        if section {
            c.section(&data, place);
        } else {
            c.body(w.kind(), &data, place);
        }
        let back = c.last().normal() == w.normal();
        c.claim("comes back", w.kind(), back, || format!("{w:?}"));
    }
}
