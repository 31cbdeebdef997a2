//! What must be answered: nnbfl's own answer on document 01's domain, and document 01's table around it.
//!
//! nnbfl decides every field, list, place and byte, and refusals 4 and 5. It has no word for the others, which are taken from document 01's table:
//! 1, 2, 3 and 8 before nnbfl is asked, 6 where it would read a per-character transform, 7 where it took a string lossily, 9 to 16 for records to write.
//! Nor has it a word for the reach, which `reach` works out, nor for 19 of document 02's Note 4: a section read whose reach is past the section's end. So nnbfl is
//! the judge of a section read where the reach keeps to the section; a body read has no section to keep to.
use crate::panes::AnyPane;
use crate::reach;
use crate::whole::*;
use bidlomeqa::layout::*;
use nnbfl::bflyt::pane::LineTransformTable;
use nnbfl::core::{Cursor, FormatError, ReadWriteable, Writer};

/// What a call returns, and its answer's words.
pub type Outcome = (u64, [u64; ANSWER_WORDS]);

pub const LIMIT: usize = 16_777_216;

pub fn refused(number: u64, a: usize, b: usize) -> Outcome {
    (REFUSED, [number, a as u64, b as u64])
}

/// Which lists a body read of the kind takes: quads, units, lines, frames.
fn takes(kind: u64) -> [bool; 4] {
    match kind {
        PIC1 => [true, false, false, false],
        TXT1 => [false, true, true, false],
        WND1 => [true, false, false, true],
        _ => [false; 4],
    }
}

fn short_list(takes: [bool; 4], lengths: [usize; 4]) -> Option<Outcome> {
    (0..4).find(|i| takes[*i] && lengths[*i] < FULL[*i]).map(|i| refused(3, i + 1, FULL[i]))
}

pub fn number32(data: &[u8], at: usize) -> usize {
    u32::from_le_bytes(data[at..at + 4].try_into().unwrap()) as usize
}

/// A cursor as document 01's reference sentence has it.
pub fn cursor(data: &[u8], body: usize) -> Cursor<'_> {
    Cursor { data, pos: body, section_start: Some(body - 8), ..Default::default() }
}

/// The per-character offset that a text box would go on to, once text, label and line table are read.
fn transform(data: &[u8], body: usize) -> Option<usize> {
    if data.len() < body + 160 {
        return None;
    }
    let offset = number32(data, body + 156);
    let flags = number32(data, body + 84) >> 16;
    if flags >> 4 & 1 == 0 || offset == 0 {
        return None;
    }
    let mut c = cursor(data, body + 160);
    let part = |at: usize| Some(number32(data, at)).filter(|o| *o != 0).map(|o| body - 8 + o);
    if let Some(to) = part(body + 92) {
        c.seek(to).ok()?;
        c.read_bytes(2 * ((number32(data, body + 76) >> 16) / 2)).ok()?;
    }
    if let Some(to) = part(body + 120) {
        c.seek(to).ok()?;
        c.read_null_terminated_string().ok()?;
    }
    if let Some(to) = part(body + 152).filter(|_| flags >> 6 & 1 == 1) {
        c.seek(to).ok()?;
        LineTransformTable::parse(&mut c).ok()?;
    }
    Some(offset)
}

// Refusal 7: the first string that is ill-formed.
fn ill_formed(kind: u64, data: &[u8], body: usize) -> Option<Outcome> {
    let until_nul = |from: usize, width: usize| {
        let part = &data[from..(from + width).min(data.len())];
        &part[..part.iter().position(|b| *b == 0).unwrap_or(part.len())]
    };
    let bad = |bytes: &[u8]| std::str::from_utf8(bytes).is_err();
    if bad(until_nul(body + 4, 24)) {
        return Some(refused(7, body + 4, 1));
    }
    if bad(until_nul(body + 28, 8)) {
        return Some(refused(7, body + 28, 2));
    }
    let label = label_place(kind, data, body)?;
    bad(until_nul(label, data.len())).then(|| refused(7, label, 3))
}

// Refusal 19: the reach is above the section's end. A body read has no section.
fn past_section(reach: usize, end: Option<usize>) -> Option<Outcome> {
    end.filter(|end| reach > *end).map(|end| refused(19, reach, end))
}

/// What refusal 19 would tell of the section at `place`, if it were looked for before 7: none where nnbfl does not read the body or it keeps to the section.
pub fn past(data: &[u8], place: usize) -> Option<Outcome> {
    let kind = LETTERS.iter().position(|l| data.get(place..).is_some_and(|s| s.starts_with(&l[..])))? as u64;
    let body = place + 8;
    if data.len() < body || kind == TXT1 && transform(data, body).is_some() {
        return None;
    }
    AnyPane::parse(kind, &mut cursor(data, body)).ok()?;
    past_section(reach::looked(kind, data, body).reach, Some(place + number32(data, place + 4)))
}

/// Where a text box's label stands.
fn label_place(kind: u64, data: &[u8], body: usize) -> Option<usize> {
    (kind == TXT1 && number32(data, body + 120) != 0).then(|| body - 8 + number32(data, body + 120))
}

/// nnbfl's answer to a body; a pane goes to `to`. A section read tells where the section ends: the pane must keep to it, and it is the answer's second word.
fn parsed(kind: u64, data: &[u8], body: usize, next: Option<usize>, to: &mut Whole) -> Outcome {
    if kind == TXT1 {
        if let Some(offset) = transform(data, body) {
            return refused(6, offset, 0);
        }
    }
    let mut c = cursor(data, body);
    match AnyPane::parse(kind, &mut c) {
        Ok(pane) => {
            if let Some(no) = ill_formed(kind, data, body) {
                return no;
            }
            let reach = reach::looked(kind, data, body).reach;
            if let Some(no) = past_section(reach, next) {
                return no;
            }
            let label = label_place(kind, data, body).unwrap_or(0);
            pane.flatten(label, to);
            if kind == TXT1 && to.is(LABEL_PRESENT) {
                assert_eq!(&data[label..label + to.label.len()], &to.label[..]);
            }
            (PANE, [c.pos as u64, next.unwrap_or(0) as u64, reach as u64])
        }
        Err(FormatError::UnexpectedEof { offset, requested_bytes }) => refused(4, offset, requested_bytes),
        Err(FormatError::MalformedSection { offset, .. }) => refused(5, offset, 0),
        Err(other) => panic!("nnbfl answered {other}"),
    }
}

/// What `bidlomeqa_read_body` must answer; a pane goes to `to`.
pub fn read_body(kind: u64, data: &[u8], place: usize, lengths: [usize; 4], to: &mut Whole) -> Outcome {
    if data.len() > LIMIT {
        return refused(1, data.len(), 0);
    }
    if place < 8 || place > data.len() {
        return refused(2, place, 0);
    }
    if let Some(no) = short_list(takes(kind), lengths) {
        return no;
    }
    parsed(kind, data, place, None, to)
}

/// What `bidlomeqa_read_section` must answer; a pane goes to `to`.
pub fn read_section(data: &[u8], place: usize, lengths: [usize; 4], to: &mut Whole) -> Outcome {
    if data.len() > LIMIT {
        return refused(1, data.len(), 0);
    }
    if place > data.len() || place % 4 != 0 {
        return refused(2, place, 0);
    }
    if let Some(no) = short_list([true; 4], lengths) {
        return no;
    }
    if place == data.len() {
        return (END, [0; 3]);
    }
    let mut c = Cursor { data, pos: place, ..Default::default() };
    for _ in 0..2 {
        if let Err(FormatError::UnexpectedEof { offset, requested_bytes }) = c.read_u32() {
            return refused(4, offset, requested_bytes);
        }
    }
    let size = number32(data, place + 4);
    if size < 8 || size % 4 != 0 || size > data.len() - place {
        return refused(8, place + 4, size);
    }
    match LETTERS.iter().position(|l| data[place..].starts_with(&l[..])) {
        Some(kind) => parsed(kind as u64, data, place + 8, Some(place + size), to),
        None => (PASSED, [(place + size) as u64, 0, 0]),
    }
}

/// What a word of the record stays below, as the layout says beside it; none where it may be any number (a count, which no write reads) or is no word of the kind.
pub fn bound(kind: u64, word: usize) -> Option<u64> {
    let float = Some(1 << 32);
    match (kind, word) {
        (_, KIND) => Some(5),
        (_, PANE_FLAGS..POSITION | FLAG_EX..RESERVE0) => Some(2),
        (_, POSITION..ALPHA) => Some(3),
        (_, NAME_COUNT | USER_COUNT) => None,
        (_, ALPHA | RESERVE0 | NAME..TRANSLATION) => Some(256),
        (_, TRANSLATION..OWN) => float,
        (PIC1, PICTURE_COLORS..PICTURE_MATERIAL) => Some(256),
        (PIC1, PICTURE_MATERIAL) => Some(1 << 16),
        (PIC1, SHAPE_PRESENT) => Some(2),
        (PIC1, SHAPE_INDEX) => float,
        (TXT1, TEXT_BUFFER_SIZE..ORIGIN) => Some(1 << 16),
        (TXT1, ORIGIN..TEXT_ALIGNMENT) => Some(3),
        (TXT1, TEXT_ALIGNMENT) => Some(4),
        (TXT1, TEXT_FLAGS..MEASURE | TEXT_PRESENT | LABEL_PRESENT | LINES_PRESENT) => Some(2),
        (TXT1, MEASURE..FONT_TOP_COLOR | CHARACTER_SPACE..SHADOW_TOP_COLOR | SHADOW_ITALIC_TILT) => float,
        (TXT1, FONT_TOP_COLOR..CHARACTER_SPACE | SHADOW_TOP_COLOR..SHADOW_ITALIC_TILT) => Some(256),
        (WND1, INFLATION..WINDOW_FLAGS | CONTENT_MATERIAL) => Some(1 << 16),
        (WND1, WINDOW_FLAGS..WINDOW_KIND | NOT_DRAW_CONTENT) => Some(2),
        (WND1, WINDOW_KIND) => Some(3),
        (WND1, CONTENT_COLORS..CONTENT_MATERIAL) => Some(256),
        (ALI1, DIRECTION | DEFAULT_MARGIN) => float,
        (ALI1, IS_ALIGN_LAST_PANE | IS_VERTICAL_ALIGNMENT) => Some(2),
        _ => None,
    }
}

/// The first word of the record that is not below its bound.
fn bad_word(words: &[u64]) -> Option<Outcome> {
    let bad = |word: &usize| bound(words[KIND], *word).is_some_and(|bound| words[*word] >= bound);
    (0..RECORD_WORDS).find(bad).map(|word| (BAD_WORD, [word as u64, 0, 0]))
}

fn bad_string(bytes: &[u8]) -> bool {
    bytes.contains(&0) || std::str::from_utf8(bytes).is_err()
}

fn bad_list(numbers: usize, width: usize) -> bool {
    numbers % width != 0 || numbers / width > 255
}

fn first_unpaired(units: &[u16]) -> Option<usize> {
    let mut before = 0;
    for decoded in char::decode_utf16(units.iter().copied()) {
        match decoded {
            Ok(c) => before += c.len_utf16(),
            Err(_) => return Some(before),
        }
    }
    None
}

// Refusals 9 to 15.
fn write_refusal(w: &Whole) -> Option<Outcome> {
    let lines = w.kind() == TXT1 && w.is(LINES_PRESENT);
    let no_line_bit = lines && !w.is(TEXT_FLAGS + 6);
    string_refusal(w).or_else(|| list_refusal(w, lines)).or_else(|| text_refusal(w)).or_else(|| no_line_bit.then(|| refused(15, 0, 0)))
}

// 9 and 10
fn string_refusal(w: &Whole) -> Option<Outcome> {
    if w.words[NAME_COUNT] > 24 || bad_string(&w.name()) {
        return Some(refused(9, 1, 0));
    }
    if w.words[USER_COUNT] > 8 || bad_string(&w.user()) {
        return Some(refused(9, 2, 0));
    }
    if w.kind() == TXT1 && w.is(LABEL_PRESENT) && bad_string(&w.label) {
        return Some(refused(9, 3, 0));
    }
    (w.words[RESERVE0] > 31).then(|| refused(10, w.words[RESERVE0] as usize, 0))
}

// 11 and 12
fn list_refusal(w: &Whole, lines: bool) -> Option<Outcome> {
    let (picture, window) = (w.kind() == PIC1, w.kind() == WND1);
    if (picture || window) && bad_list(w.quads.len(), 8) {
        return Some(refused(11, 1, w.quads.len()));
    }
    if lines && bad_list(w.lines.len(), 2) {
        return Some(refused(11, 3, w.lines.len()));
    }
    if window && bad_list(w.frames.len(), 2) {
        return Some(refused(11, 4, w.frames.len()));
    }
    let flip = w.frames.chunks(2).position(|f| window && f[1] > 5)?;
    Some(refused(12, flip, w.frames[2 * flip + 1] as usize))
}

// 13 and 14
fn text_refusal(w: &Whole) -> Option<Outcome> {
    if w.kind() != TXT1 || !w.is(TEXT_PRESENT) {
        return None;
    }
    if w.units.len() as u64 != w.words[TEXT_LENGTH] / 2 {
        return Some(refused(13, w.units.len(), w.words[TEXT_LENGTH] as usize));
    }
    first_unpaired(&w.units).map(|before| refused(14, before, 0))
}

/// The section at `place`, or the body alone, as nnbfl writes it. `bytes` is everything up to its end.
pub fn written(w: &Whole, section: bool, place: usize, bytes: Vec<u8>) -> Vec<u8> {
    let mut writer = Writer { buffer: bytes, breadcrumbs: Vec::new(), version: Default::default(), section_start: None };
    writer.buffer.clear();
    writer.buffer.resize(place, 0);
    if section {
        writer.write_bytes(LETTERS[w.kind() as usize]);
        writer.write_u32(0);
    }
    writer.section_start = Some(writer.pos() - 8);
    AnyPane::of(w).write(&mut writer);
    if section {
        writer.align(4);
        let size = (writer.pos() - place) as u32;
        writer.buffer[place + 4..place + 8].copy_from_slice(&size.to_le_bytes());
    }
    writer.buffer
}

/// What `bidlomeqa_write_body` or `bidlomeqa_write_section` must answer, and what `out` must be after it.
pub fn write(w: &Whole, section: bool, place: usize, out: &mut [u8], scratch: &mut Vec<u8>) -> Outcome {
    if let Some(no) = bad_word(&w.words) {
        return no;
    }
    if out.len() > LIMIT {
        return refused(1, out.len(), 0);
    }
    if w.kind() == TXT1 && w.is(LABEL_PRESENT) && w.label.len() > LIMIT {
        return refused(1, w.label.len(), 0);
    }
    let bad_place = if section { place % 4 != 0 } else { place < 8 };
    if bad_place || place > out.len() {
        return refused(2, place, 0);
    }
    if let Some(no) = write_refusal(w) {
        return no;
    }
    *scratch = written(w, section, place, std::mem::take(scratch));
    let end = scratch.len();
    if end > out.len() {
        return refused(16, end, out.len());
    }
    out[place..end].copy_from_slice(&scratch[place..]);
    (WRITTEN, [end as u64, 0, 0])
}

/// What `bidlomeqa_label` must answer.
pub fn label(data: &[u8], words: &[u64]) -> Outcome {
    if let Some(no) = bad_word(words) {
        return no;
    }
    match stands(data, words) {
        Some((place, length)) => (PART, [0, place, length]),
        None => (PART, [0, 0, 0]),
    }
}

/// What `bidlomeqa_caption` must answer.
pub fn caption(strip: &[u8], words: &[u64], lent: &[u8]) -> Outcome {
    if let Some(no) = bad_word(words) {
        return no;
    }
    match stands(strip, words) {
        Some((place, length)) => (PART, [0, place, length]),
        None => (PART, [1, 0, lent.len() as u64]),
    }
}

fn stands(data: &[u8], words: &[u64]) -> Option<(u64, u64)> {
    let (place, length) = (words[LABEL_PLACE], words[LABEL_LENGTH]);
    let end = u128::from(place) + u128::from(length);
    (words[KIND] == TXT1 && words[LABEL_PRESENT] != 0 && end <= data.len() as u128).then_some((place, length))
}
