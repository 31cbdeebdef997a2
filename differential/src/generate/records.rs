//! Records to write.
use super::bodies::{small, units, STRINGS};
use crate::random::Random;
use crate::whole::*;
use bidlomeqa::layout::*;

fn put_name(w: &mut Whole, count: usize, from: usize, width: usize, name: &[u8]) {
    w.words[count] = name.len() as u64;
    for i in 0..width {
        w.words[from + i] = name.get(i).map_or(0, |b| u64::from(*b));
    }
}

/// Puts the pane's name, cut to 24 bytes but with its count.
pub fn put_pane_name(w: &mut Whole, name: &[u8]) {
    put_name(w, NAME_COUNT, NAME, 24, name);
}

/// Puts the user's name, cut to 8 bytes but with its count.
pub fn put_user_name(w: &mut Whole, name: &[u8]) {
    put_name(w, USER_COUNT, USER, 8, name);
}

// Well-formed, and at most `width` bytes.
fn string(r: &mut Random, width: usize) -> &'static [u8] {
    let mut text = STRINGS[r.below(STRINGS.len() - 3)];
    while text.len() > width || std::str::from_utf8(text).is_err() {
        text = &text[..text.len() - 1];
    }
    text
}

fn fill(r: &mut Random, w: &mut Whole, from: usize, count: usize, below: usize) {
    for word in &mut w.words[from..from + count] {
        *word = r.below(below) as u64;
    }
}

fn fill_floats(r: &mut Random, w: &mut Whole, from: usize, count: usize) {
    for word in &mut w.words[from..from + count] {
        *word = u64::from(r.float());
    }
}

fn floats(r: &mut Random, count: usize) -> Vec<u32> {
    (0..count).map(|_| r.float()).collect()
}

fn picture(r: &mut Random, w: &mut Whole) {
    fill(r, w, PICTURE_COLORS, 16, 256);
    fill(r, w, PICTURE_MATERIAL, 1, 1 << 16);
    w.words[PICTURE_QUADS] = r.word();
    fill(r, w, SHAPE_PRESENT, 1, 2);
    fill(r, w, SHAPE_INDEX, 1, 1 << 32);
    let count = small(r);
    w.quads = floats(r, 8 * count);
}

fn text_box(r: &mut Random, w: &mut Whole) {
    fill(r, w, TEXT_BUFFER_SIZE, 4, 1 << 16);
    fill(r, w, ORIGIN, 2, 3);
    fill(r, w, TEXT_ALIGNMENT, 1, 4);
    fill(r, w, TEXT_FLAGS, 15, 2);
    fill_floats(r, w, MEASURE, 3);
    fill(r, w, FONT_TOP_COLOR, 8, 256);
    fill_floats(r, w, CHARACTER_SPACE, 6);
    fill(r, w, SHADOW_TOP_COLOR, 8, 256);
    fill_floats(r, w, SHADOW_ITALIC_TILT, 1);
    fill(r, w, TEXT_PRESENT, 1, 2);
    fill(r, w, LABEL_PRESENT, 1, 2);
    fill(r, w, LABEL_PLACE, 2, 1 << 40);
    fill(r, w, LINES_PRESENT, 1, 2);
    w.words[LINES_COUNT] = r.word();
    if w.is(TEXT_PRESENT) {
        let count = if r.once_in(64) { r.below(3000) } else { r.below(12) };
        w.words[TEXT_LENGTH] = (2 * count + r.below(2)) as u64;
        w.units = units(r, count);
    }
    w.label = string(r, 64).to_vec();
    if w.is(LINES_PRESENT) {
        w.words[TEXT_FLAGS + 6] = 1;
        let count = small(r);
        w.lines = floats(r, 2 * count);
    }
}

fn window(r: &mut Random, w: &mut Whole) {
    fill(r, w, INFLATION, 8, 1 << 16);
    fill(r, w, WINDOW_FLAGS, 2, 2);
    fill(r, w, WINDOW_KIND, 1, 3);
    fill(r, w, NOT_DRAW_CONTENT, 1, 2);
    w.words[FRAMES_COUNT] = r.word();
    fill(r, w, CONTENT_COLORS, 16, 256);
    fill(r, w, CONTENT_MATERIAL, 1, 1 << 16);
    w.words[CONTENT_QUADS] = r.word();
    let count = small(r);
    w.quads = floats(r, 8 * count);
    for _ in 0..small(r) {
        w.frames.push(r.word() as u16);
        w.frames.push(r.below(6) as u16);
    }
}

/// A record of the kind that the write table lets through.
pub fn good(r: &mut Random, kind: u64) -> Whole {
    let mut w = Whole::default();
    w.words[KIND] = kind;
    fill(r, &mut w, PANE_FLAGS, 8, 2);
    fill(r, &mut w, POSITION, 4, 3);
    fill(r, &mut w, ALPHA, 1, 256);
    fill(r, &mut w, FLAG_EX, 3, 2);
    fill(r, &mut w, RESERVE0, 1, 32);
    let (name, user) = (string(r, 24), string(r, 8));
    put_pane_name(&mut w, name);
    put_user_name(&mut w, user);
    fill_floats(r, &mut w, TRANSLATION, 10);
    match kind {
        PIC1 => picture(r, &mut w),
        TXT1 => text_box(r, &mut w),
        WND1 => window(r, &mut w),
        ALI1 => {
            fill(r, &mut w, DIRECTION, 1, 1 << 32);
            fill_floats(r, &mut w, DEFAULT_MARGIN, 1);
            fill(r, &mut w, IS_ALIGN_LAST_PANE, 2, 2);
        }
        _ => {}
    }
    w
}

/// Puts something into the record that the write table refuses, if its kind has it.
pub fn spoil(r: &mut Random, w: &mut Whole) {
    match r.below(16) {
        0 => put_pane_name(w, &[0x61; 25]),
        1 => put_user_name(w, &[0x61; 9]),
        2 => put_pane_name(w, b"a\0b"),
        3 => put_user_name(w, b"\xff"),
        4 => w.label = b"a\0b".to_vec(),
        5 => w.label = b"\xed\xa0\x80".to_vec(),
        6 => w.words[RESERVE0] = 32 + r.below(224) as u64,
        7 => w.quads.truncate(w.quads.len().saturating_sub(1 + r.below(7))),
        8 => w.quads = vec![0; 8 * 256],
        9 => w.lines.push(0),
        10 => w.lines = vec![0; 2 * 256],
        11 => w.frames.push(0),
        12 => w.frames = vec![0; 2 * 256],
        13 => {
            if let Some(flip) = w.frames.chunks_exact_mut(2).last() {
                flip[1] = r.pick(&[6, 7, 255, 256, 65535]);
            }
        }
        14 => w.units.push(r.pick(&[0x41, 0xD800, 0xDC00])),
        _ => w.words[TEXT_FLAGS + 6] = 0,
    }
    if r.once_in(4) {
        if let Some(unit) = w.units.last_mut() {
            *unit = r.pick(&[0xD800, 0xDBFF, 0xDC00, 0xDFFF]);
        }
    }
}

/// A record of any kind, one in eight spoilt.
pub fn any(r: &mut Random) -> Whole {
    let kind = r.below(5) as u64;
    let mut w = good(r, kind);
    if r.once_in(8) {
        spoil(r, &mut w);
    }
    w
}
