//! Body reads.
use super::bodies::{self, put16, put32};
use crate::compare::Comparison;
use crate::oracle::LIMIT;
use crate::random::{Random, FLOATS};
use crate::whole::*;

const KINDS: [u64; 5] = [PAN1, PIC1, TXT1, WND1, ALI1];

/// Offsets that lie far out.
pub const FAR: [u32; 12] =
    [0x100, 0x1000, 0xFFFF, 0x1_0000, 0xFF_FFFF, 0x100_0000, 0x7FFF_FFFF, 0x8000_0000, 0xFFFF_FFF0, 0xFFFF_FFF8, 0xFFFF_FFFE, 0xFFFF_FFFF];

/// Templates and random bodies of each kind, at each residue, cut at every length; as bodies and as sections.
pub fn cut(c: &mut Comparison, r: &mut Random) {
    for kind in KINDS {
        for place in 8..16 {
            let whole = if place < 12 { bodies::template(r, kind, place) } else { bodies::body(r, kind, place, 3) };
            for n in place..=whole.len().min(place + 1200) {
                c.body(kind, &whole[..n], place);
            }
        }
        let whole = bodies::section(kind, bodies::template(r, kind, 8));
        for n in 0..=whole.len() {
            let mut part = whole[..n].to_vec();
            c.section(&part, 0);
            if n >= 8 {
                put32(&mut part, 4, n as u32 & !3);
                c.section(&part, 0);
            }
        }
    }
}

/// Every value of each byte of a template.
pub fn bytes(c: &mut Comparison, r: &mut Random) {
    for kind in KINDS {
        for i in 0.. {
            let place = 8 + i % 4;
            let mut data = bodies::template(r, kind, place);
            if place + i >= data.len() {
                break;
            }
            for value in 0..=255 {
                data[place + i] = value;
                c.body(kind, &data, place);
            }
        }
    }
}

/// All text flags, with and without a per-character offset.
pub fn flags(c: &mut Comparison, r: &mut Random) {
    for character in [0, 0x1234] {
        let mut data = bodies::template(r, TXT1, 9);
        put32(&mut data, 9 + 156, character);
        for flags in 0..=0xFFFF {
            put16(&mut data, 9 + 86, flags);
            c.body(TXT1, &data, 9);
        }
    }
}

// Where the floats of the line table stand in the template of a text box, after its count of one byte.
fn line_floats(kind: u64) -> std::ops::Range<usize> {
    if kind == TXT1 { 169..185 } else { 0..0 }
}

/// Each class of floats in each word of four bytes after the names, and in each word of a line table.
pub fn floats(c: &mut Comparison, r: &mut Random) {
    for kind in KINDS {
        for place in 8..12 {
            let whole = bodies::template(r, kind, place);
            let words = (place + 36..whole.len().saturating_sub(3)).step_by(4);
            for at in words.chain(line_floats(kind).step_by(4).map(|at| place + at)) {
                for bits in FLOATS {
                    let mut data = whole.clone();
                    put32(&mut data, at, bits);
                    c.body(kind, &data, place);
                }
            }
        }
    }
}

/// Where the offsets stand in a body.
pub fn offset_fields(kind: u64) -> &'static [usize] {
    match kind {
        TXT1 => &[92, 120, 152, 156],
        WND1 => &[96, 100, 156, 160],
        _ => &[],
    }
}

/// Every offset of a text box and a window over every place of the buffer and beyond it.
pub fn offsets(c: &mut Comparison, r: &mut Random) {
    for kind in [TXT1, WND1] {
        for place in 8..12 {
            for field in offset_fields(kind) {
                let mut data = bodies::template(r, kind, place);
                let near = 0..data.len() as u32 + 12;
                for offset in near.chain(FAR) {
                    put32(&mut data, place + field, offset);
                    c.body(kind, &data, place);
                }
            }
        }
    }
}

/// Counts at their limits, with all their bytes, one short and one more.
pub fn counts(c: &mut Comparison, r: &mut Random) {
    for count in [0, 1, 2, 3, 127, 128, 253, 254, 255] {
        for place in 8..12 {
            for (kind, at) in [(PIC1, 94), (WND1, 122), (WND1, 92)] {
                let mut data = bodies::template(r, kind, place);
                data[place + at] = count as u8;
                let need = if at == 92 { 4 * count } else { 32 * count };
                around(c, r, kind, data, place, need);
            }
            let mut data = bodies::template(r, TXT1, place);
            data[place + 176 - 8] = count as u8;
            data.truncate(place + 169);
            around(c, r, TXT1, data, place, 8 * count);
        }
    }
    for length in [0u16, 1, 2, 3, 254, 255, 256, 4095, 32767, 65533, 65534, 65535] {
        let place = 8 + usize::from(length) % 4;
        let mut data = bodies::template(r, TXT1, place);
        put16(&mut data, place + 78, length);
        data.resize(place + 160 + usize::from(length) + 2, 0x41);
        for n in data.len() - 4..=data.len() {
            c.body(TXT1, &data[..n], place);
        }
        for unit in bodies::units(r, usize::from(length) / 2).into_iter().enumerate() {
            put16(&mut data, place + 160 + 2 * unit.0, unit.1);
        }
        for offset in [120, 152] {
            put32(&mut data, place + offset, 0);
        }
        c.body(TXT1, &data, place);
    }
}

fn around(c: &mut Comparison, r: &mut Random, kind: u64, mut data: Vec<u8>, place: usize, need: usize) {
    let from = data.len();
    for wanted in [need.saturating_sub(1), need, need + 1, need + 4, need + 200] {
        data.resize(from + wanted, 0);
        r.fill(&mut data[from..]);
        c.body(kind, &data, place);
    }
    let whole = data.len();
    for less in [1, 4, 5, 32, 33] {
        c.body(kind, &data[..(whole - less).max(place)], place);
    }
}

/// Lists that are short, alone and together.
pub fn lists(c: &mut Comparison, r: &mut Random) {
    let lengths = |list: usize| [FULL[list], FULL[list] - 1, FULL[list] + 1, 0];
    for kind in KINDS {
        let data = bodies::template(r, kind, 8);
        let section = bodies::section(kind, data.clone());
        for quads in lengths(0) {
            for units in lengths(1) {
                for lines in lengths(2) {
                    for frames in lengths(3) {
                        c.body_with(kind, &data, 8, [quads, units, lines, frames]);
                        c.section_with(&section, 0, [quads, units, lines, frames]);
                    }
                }
            }
        }
    }
}

/// Places before 8, at the end and beyond it.
pub fn places(c: &mut Comparison, r: &mut Random) {
    for kind in KINDS {
        let data = bodies::template(r, kind, 8);
        for place in (0..data.len() + 20).chain([0xFFFF_FFFF, 1 << 32, usize::MAX - 8, usize::MAX]) {
            c.body(kind, &data, place);
            c.section(&data, place);
        }
        for n in 0..12 {
            for place in 0..16 {
                c.body(kind, &data[..n], place);
                c.section(&data[..n], place);
            }
        }
    }
}

/// Buffers at the limit of 16,777,216 bytes.
pub fn large(c: &mut Comparison, r: &mut Random) {
    let mut data = vec![0x41; LIMIT + 1];
    for kind in KINDS {
        let whole = bodies::template(r, kind, 0);
        for back in [whole.len(), whole.len() + 1, 1, 0] {
            let place = LIMIT - back;
            let end = (place + whole.len()).min(LIMIT);
            data[place..end].copy_from_slice(&whole[..end - place]);
            c.body(kind, &data[..LIMIT], place);
            c.body(kind, &data, place);
            data[place..].fill(0x41);
        }
        data[8..8 + whole.len()].copy_from_slice(&whole);
        for field in offset_fields(kind) {
            for offset in [LIMIT - 1, LIMIT - 2, LIMIT, LIMIT + 1, LIMIT - 64] {
                let mut near = whole.clone();
                put32(&mut near, *field, offset as u32);
                data[8..8 + near.len()].copy_from_slice(&near);
                c.body(kind, &data[..LIMIT], 8);
                data[LIMIT - 1] = 0;
                c.body(kind, &data[..LIMIT], 8);
                data[LIMIT - 1] = 0x41;
            }
        }
        data[8..].fill(0x41);
        let section = bodies::section(kind, bodies::template(r, kind, 8));
        let place = LIMIT - section.len();
        data[place..LIMIT].copy_from_slice(&section);
        c.section(&data[..LIMIT], place);
        c.section(&data[..LIMIT], LIMIT);
        c.section(&data, place);
        data[place..].fill(0x41);
    }
}

/// A random body, sometimes cut.
pub fn random(c: &mut Comparison, r: &mut Random) {
    let mut case = bodies::any(r);
    if r.once_in(4) {
        let n = case.place + r.below(case.data.len() - case.place + 1);
        case.data.truncate(n);
    }
    if r.once_in(8) {
        let at = case.place + r.below(case.data.len() - case.place + 1);
        r.fill(&mut case.data[at..]);
    }
    c.body(case.kind, &case.data, case.place);
}

/// An offset into the buffer, at its end, beyond it or far out.
pub fn offset(r: &mut Random, length: usize) -> u32 {
    match r.below(12) {
        0 => 0,
        1 => r.below(12) as u32,
        2 => length as u32 + r.below(6) as u32,
        3 => (length as u32).wrapping_sub(r.below(12) as u32),
        4 => r.pick(&FAR),
        5 => r.word() as u32,
        _ => r.below(length + 1) as u32,
    }
}

/// Puts the parts of a text box or a window anywhere, over one another.
pub fn scatter(r: &mut Random, kind: u64, data: &mut [u8], place: usize) {
    for field in offset_fields(kind) {
        if r.once_in(2) && place + field + 4 <= data.len() {
            let to = offset(r, data.len() + 8 - place);
            put32(data, place + field, to);
        }
    }
    if kind == TXT1 && r.once_in(2) {
        put32(data, place + 156, 0);
    }
}

/// A text box or a window whose parts lie anywhere, over one another.
pub fn random_offsets(c: &mut Comparison, r: &mut Random) {
    let kind = r.pick(&[TXT1, WND1]);
    let place = 8 + r.below(12);
    let after = r.below(100);
    let mut data = bodies::body(r, kind, place, after);
    scatter(r, kind, &mut data, place);
    c.body(kind, &data, place);
}
