//! Bytes of bodies.
use crate::random::Random;
use crate::whole::*;

/// A buffer with a body of the kind at `place`.
pub struct Case {
    pub kind: u64,
    pub data: Vec<u8>,
    pub place: usize,
}

pub const STRINGS: [&[u8]; 14] = [
    b"",
    b"N_Root",
    b"RootPane",
    "\u{e9}\u{20ac}\u{1f600}".as_bytes(),
    "\u{7ff}\u{800}\u{ffff}\u{10000}\u{10ffff}".as_bytes(),
    "\u{fffd}".as_bytes(),
    "\u{d7ff}\u{e000}".as_bytes(),
    b"T_Text_00",
    b"\x01\x7f",
    b"W_Window_With_A_Long_Name_Indeed",
    "\u{3042}\u{3044}\u{3046}\u{3048}\u{304a}\u{304b}\u{304d}\u{304f}".as_bytes(),
    b"ill\xff",
    b"\xed\xa0\x80",
    b"cut\xe2\x82",
];

/// The name in a field of `width` bytes, cut to it; mostly well-formed.
fn name(r: &mut Random, width: usize, to: &mut Vec<u8>) {
    let mut field = vec![0; width];
    let well_formed = STRINGS.len() - if r.once_in(16) { 0 } else { 3 };
    let text = STRINGS[r.below(well_formed)];
    let mut count = text.len().min(width);
    while well_formed < STRINGS.len() && std::str::from_utf8(&text[..count]).is_err() {
        count -= 1;
    }
    field[..count].copy_from_slice(&text[..count]);
    if r.once_in(4) && count + 1 < width {
        r.fill(&mut field[count + 1..]);
    }
    to.extend(field);
}

fn random(r: &mut Random, count: usize, to: &mut Vec<u8>) {
    let from = to.len();
    to.resize(from + count, 0);
    r.fill(&mut to[from..]);
}

pub fn floats(r: &mut Random, count: usize, to: &mut Vec<u8>) {
    for _ in 0..count {
        to.extend(r.float().to_le_bytes());
    }
}

pub fn put32(data: &mut [u8], at: usize, n: u32) {
    data[at..at + 4].copy_from_slice(&n.to_le_bytes());
}

pub fn put16(data: &mut [u8], at: usize, n: u16) {
    data[at..at + 2].copy_from_slice(&n.to_le_bytes());
}

// Puts the offset from `section` to the end of what stands there.
fn offset_here(to: &mut [u8], at: usize, section: usize) {
    let offset = to.len() - section;
    put32(to, at, offset as u32);
}

pub fn base(r: &mut Random, to: &mut Vec<u8>) {
    random(r, 4, to);
    name(r, 24, to);
    name(r, 8, to);
    floats(r, 10, to);
}

/// Small mostly, sometimes up to 255.
pub fn small(r: &mut Random) -> usize {
    match r.below(40) {
        0 => r.below(256),
        1 => 255,
        2..=9 => r.below(8),
        n => n % 3,
    }
}

/// Units of well-formed UTF-16.
pub fn units(r: &mut Random, count: usize) -> Vec<u16> {
    let mut units = Vec::with_capacity(count);
    while units.len() < count {
        let n = r.word() as u16;
        match n {
            0xD800..=0xDFFF if units.len() + 2 <= count => {
                units.push(0xD800 | n & 0x3FF);
                units.push(0xDC00 | (n >> 3) & 0x3FF);
            }
            0xD800..=0xDFFF => units.push(0xE000),
            _ if n & 1 == 0 => units.push(n & 0x7F),
            _ => units.push(n),
        }
    }
    units
}

fn align(to: &mut Vec<u8>) {
    while to.len() % 4 != 0 {
        to.push(0);
    }
}

fn picture(r: &mut Random, to: &mut Vec<u8>) {
    random(r, 18, to);
    let count = small(r);
    to.push(count as u8);
    let shape = r.pick(&[0, 0, 1, 2, 255]);
    to.push(shape);
    floats(r, 8 * count, to);
    if shape != 0 || r.once_in(4) {
        random(r, 4, to);
    }
}

fn text_box(r: &mut Random, place: usize, to: &mut Vec<u8>) {
    let own = to.len();
    let section = place - 8;
    random(r, 84, to);
    let count = if r.once_in(64) { r.below(3000) } else { r.below(12) };
    put16(to, own + 2, (2 * count + r.below(2)) as u16);
    floats_at(r, to, own + 12, 1);
    floats_at(r, to, own + 28, 4);
    floats_at(r, to, own + 48, 4);
    floats_at(r, to, own + 72, 1);
    for offset in [16, 44, 76] {
        put32(to, own + offset, 0);
    }
    if r.once_in(8) {
        put32(to, own + 80, r.pick(&[1, 168, 0xFFFF_FFFF]));
    } else {
        put32(to, own + 80, 0);
    }
    if !r.once_in(4) {
        offset_here(to, own + 16, section);
        for unit in units(r, count) {
            to.extend(unit.to_le_bytes());
        }
    }
    if !r.once_in(3) {
        align(to);
        offset_here(to, own + 44, section);
        let well_formed = if r.once_in(16) { STRINGS.len() } else { STRINGS.len() - 3 };
        to.extend(STRINGS[r.below(well_formed)]);
        to.push(0);
    }
    if !r.once_in(3) {
        align(to);
        offset_here(to, own + 76, section);
        let lines = small(r);
        to.push(lines as u8);
        floats(r, 2 * lines, to);
    }
}

fn floats_at(r: &mut Random, to: &mut [u8], at: usize, count: usize) {
    for i in 0..count {
        put32(to, at + 4 * i, r.float());
    }
}

fn window(r: &mut Random, place: usize, to: &mut Vec<u8>) {
    let own = to.len();
    let section = place - 8;
    random(r, 28, to);
    let frames = small(r);
    to[own + 16] = frames as u8;
    offset_here(to, own + 20, section);
    random(r, 18, to);
    let quads = small(r);
    to.push(quads as u8);
    random(r, 1, to);
    floats(r, 8 * quads, to);
    align(to);
    offset_here(to, own + 24, section);
    let table = to.len();
    for i in 0..frames {
        let at = table + 4 * frames + 4 * i - section;
        to.extend((at as u32).to_le_bytes());
    }
    for _ in 0..frames {
        random(r, 2, to);
        to.push(if r.once_in(8) { r.byte() } else { r.below(6) as u8 });
        random(r, 1, to);
    }
}

/// A body of the kind as an editor lays it out, at a place in a buffer with bytes before and after it.
pub fn body(r: &mut Random, kind: u64, place: usize, after: usize) -> Vec<u8> {
    let mut data = Vec::with_capacity(512);
    random(r, place, &mut data);
    base(r, &mut data);
    match kind {
        PIC1 => picture(r, &mut data),
        TXT1 => text_box(r, place, &mut data),
        WND1 => window(r, place, &mut data),
        ALI1 => {
            random(r, 4, &mut data);
            floats(r, 1, &mut data);
            data.push(r.pick(&[0, 1, 2, 255]));
            data.push(r.pick(&[0, 1, 2, 255]));
            random(r, 2, &mut data);
        }
        _ => {}
    }
    random(r, after, &mut data);
    data
}

/// A random body at a random place of any residue.
pub fn any(r: &mut Random) -> Case {
    let kind = r.below(5) as u64;
    let place = 8 + if r.once_in(8) { r.below(200) } else { r.below(8) };
    let after = if r.once_in(2) { 0 } else { r.below(40) };
    let data = body(r, kind, place, after);
    Case { kind, data, place }
}

fn text_template(r: &mut Random, data: &mut Vec<u8>) {
    let own = data.len();
    random(r, 84, data);
    put16(data, own + 2, 5);
    put16(data, own + 10, 0x9040);
    for (at, offset) in [(16, 168), (44, 172), (76, 176), (80, 0)] {
        put32(data, own + at, offset);
    }
    data.extend(b"\x41\0\xe9\0ab\0\0\x02");
    floats(r, 4, data);
}

fn window_template(r: &mut Random, data: &mut Vec<u8>) {
    random(r, 16, data);
    data.extend([2, 0xEC, 3, 4]);
    data.extend([112u32, 164].map(u32::to_le_bytes).concat());
    random(r, 18, data);
    data.extend([1, 9]);
    floats(r, 8, data);
    data.extend([172u32, 176].map(u32::to_le_bytes).concat());
    data.extend([1, 0, 6, 9, 2, 0, 5, 9]);
}

/// A body with few numbers in its lists and every part present, for going through its bytes.
pub fn template(r: &mut Random, kind: u64, place: usize) -> Vec<u8> {
    let mut data = Vec::new();
    random(r, place, &mut data);
    data.extend([1, 0x59, 255, 0xFF]);
    data.extend(b"P_pane\0\0\0\0\0\0\0\0\0\0\0\0\0\0\0\0\0\0user\0\0\0\0");
    floats(r, 10, &mut data);
    match kind {
        PIC1 => {
            random(r, 18, &mut data);
            data.extend([1, 7]);
            floats(r, 8, &mut data);
            random(r, 4, &mut data);
        }
        TXT1 => text_template(r, &mut data),
        WND1 => window_template(r, &mut data),
        ALI1 => random(r, 12, &mut data),
        _ => {}
    }
    data
}

/// The body as a section: letters and a size before it. `data` has the body at 8.
pub fn section(kind: u64, mut data: Vec<u8>) -> Vec<u8> {
    data[..4].copy_from_slice(LETTERS[kind as usize]);
    align(&mut data);
    let size = data.len() as u32;
    put32(&mut data, 4, size);
    data
}
