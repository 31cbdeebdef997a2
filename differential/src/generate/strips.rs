//! Sections in a row, headers, sections that their panes keep to or not, label and caption.
use super::bodies::{self, put32};
use super::{reads, records};
use crate::compare::Comparison;
use crate::oracle;
use crate::random::Random;
use crate::whole::*;
use bidlomeqa::layout::*;

/// Letters and sizes of headers.
pub fn headers(c: &mut Comparison, r: &mut Random) {
    let letters: [&[u8; 4]; 12] =
        [b"pan1", b"pic1", b"txt1", b"wnd1", b"ali1", b"grp1", b"usd1", b"PAN1", b"pan2", b"1nap", b"\0\0\0\0", b"\xff\xff\xff\xff"];
    for (i, letters) in letters.iter().enumerate() {
        let mut data = bodies::template(r, (i % 5) as u64, 8);
        data[..4].copy_from_slice(&letters[..]);
        while data.len() % 4 != 0 {
            data.push(0);
        }
        let length = data.len() as u32;
        for size in (0..length + 16).chain([0xFFFF_FFF8, 0xFFFF_FFFC, 0xFFFF_FFFF, 0x8000_0000, 0x100_0000]) {
            put32(&mut data, 4, size);
            c.section(&data, 0);
        }
        for place in [4, 8, 40] {
            let mut later = vec![0x33; place];
            put32(&mut data, 4, length);
            later.extend(&data);
            for n in place..=later.len() {
                c.section(&later[..n], place);
            }
        }
    }
}

// A header before the body at `place` + 8.
fn head(data: &mut [u8], place: usize, kind: u64, size: usize) {
    data[place..place + 4].copy_from_slice(LETTERS[kind as usize]);
    put32(data, place + 4, size as u32);
}

// How many bytes of its section the pane looks at, if it is read: the section that just holds it has so many, rounded up to a multiple of 4.
fn looked(kind: u64, data: &[u8], place: usize) -> Option<usize> {
    let read = oracle::read_body(kind, data, place + 8, FULL, &mut Whole::default());
    (read.0 == PANE).then(|| read.1[2] as usize - place)
}

// The body at `place` + 8 in a section of every size that its bytes have room for.
fn every_size(c: &mut Comparison, kind: u64, data: &[u8], place: usize) {
    let mut data = data.to_vec();
    for size in (8..=data.len() - place).step_by(4) {
        head(&mut data, place, kind, size);
        c.section(&data, place);
    }
}

// The body at `place` + 8 in sections that hold it just so, or not quite.
fn about(c: &mut Comparison, kind: u64, data: &mut [u8], place: usize) {
    let Some(needs) = looked(kind, data, place) else { return };
    let just = needs.next_multiple_of(4);
    for size in [just - 4, just, just + 4] {
        head(data, place, kind, size);
        c.section(data, place);
    }
}

/// Bodies of each kind in sections of every size, and with a name that is ill-formed: as an editor lays them out, and with other bytes behind them.
pub fn every_section(c: &mut Comparison, r: &mut Random) {
    for kind in 0..5 {
        for place in [0, 4, 40] {
            let mut template = bodies::template(r, kind, place + 8);
            template.resize(template.len() + 12, 0x41);
            every_size(c, kind, &template, place);
            template[place + 12] = 0xFF;
            every_size(c, kind, &template, place);
        }
        for _ in 0..20 {
            let body = bodies::body(r, kind, 8, 16);
            if body.len() < 2000 {
                every_size(c, kind, &body, 0);
            }
        }
    }
}

/// Every offset of a text box and a window over every place of the buffer, and every count of a picture, a window and a line table, in sections that just hold what is read, or not quite.
pub fn just_kept(c: &mut Comparison, r: &mut Random) {
    for kind in [TXT1, WND1] {
        for place in [0, 8] {
            for field in reads::offset_fields(kind) {
                let mut data = bodies::template(r, kind, place + 8);
                let near = 0..(data.len() - place) as u32 + 8;
                data.resize(data.len() + 40, 0);
                for offset in near {
                    put32(&mut data, place + 8 + field, offset);
                    about(c, kind, &mut data, place);
                }
            }
        }
    }
    for (kind, at) in [(PIC1, 94), (PIC1, 95), (WND1, 92), (WND1, 122), (TXT1, 168), (TXT1, 78)] {
        let mut data = bodies::template(r, kind, 8);
        data.resize(9000, 0);
        for count in 0..=255 {
            data[8 + at] = count;
            about(c, kind, &mut data, 0);
        }
    }
}

// Writes the records one after another into an output of the length, then reads what stands there.
fn strip(c: &mut Comparison, writes: &[Whole], length: usize) {
    c.fresh(length);
    let mut kept = Vec::new();
    let mut place = 0;
    for w in writes {
        let outcome = c.write_over(w, true, place, length);
        if outcome.0 == WRITTEN {
            place = outcome.1[0] as usize;
            kept.push(w);
        }
    }
    let strip = c.written(place);
    let mut at = 0;
    for w in kept {
        let outcome = c.section_of(&strip, at);
        let back = outcome.0 == PANE && c.last().normal() == w.normal();
        c.claim("comes back", w.kind(), back, || format!("section at {at} of {place} bytes: {w:?}"));
        at = outcome.1[1] as usize;
    }
    let end = c.section_of(&strip, at);
    c.claim("ends", 5, end.0 == END, || format!("{at} of {place}"));
}

// With few numbers in its lists.
fn short(mut w: Whole) -> Whole {
    w.quads.truncate(8);
    w.frames.truncate(4);
    w.lines.truncate(2);
    w.units.truncate(2);
    w.words[TEXT_LENGTH] = 2 * w.units.len() as u64;
    w
}

/// Lists of writes into outputs of every length: one of all kinds, one with refused ones among them, and random ones.
pub fn every_length(c: &mut Comparison, r: &mut Random) {
    let kinds: Vec<Whole> = (0..8).map(|i| short(records::good(r, i % 5))).collect();
    let mut refused = kinds.clone();
    records::spoil(r, &mut refused[3]);
    refused[5].words[RESERVE0] = 77;
    let mut lists = vec![kinds, refused];
    for _ in 0..16 {
        let count = r.below(9);
        lists.push((0..count).map(|_| short(records::any(r))).collect());
    }
    for writes in lists {
        for length in 0..1400 {
            strip(c, &writes, length);
        }
    }
}

/// A random list of writes into an output of a random length.
pub fn random(c: &mut Comparison, r: &mut Random) {
    let writes: Vec<Whole> = (0..r.below(9)).map(|_| records::any(r)).collect();
    let length = match r.below(3) {
        0 => r.below(600),
        1 => r.below(3000),
        _ => 40_000,
    };
    strip(c, &writes, length);
}

/// A random section, its body anywhere and its size right or wrong.
pub fn sections(c: &mut Comparison, r: &mut Random) {
    let mut data = Vec::new();
    let place = 4 * r.below(4);
    data.resize(place, 0x77);
    let kind = r.below(5) as u64;
    let after = r.below(30);
    let section = bodies::section(kind, bodies::body(r, kind, 8, after));
    data.extend(section);
    if r.once_in(4) {
        let size = r.pick(&[0, 8, 12, 76, 84, 100, 0xFFFF_FFFC]);
        put32(&mut data, place + 4, size);
    }
    if r.once_in(8) {
        data[place] ^= 1;
    }
    if r.once_in(4) {
        data.truncate(place + r.below(data.len() - place + 1));
    }
    c.section(&data, place);
}

/// A pane in a section that just holds it or not quite, or of any size up to that; its parts sometimes anywhere, a name sometimes ill-formed.
pub fn sizes(c: &mut Comparison, r: &mut Random) {
    let (kind, place, after) = (r.below(5) as u64, 4 * r.below(4), r.below(60));
    let body = place + 8;
    let mut data = bodies::body(r, kind, body, after);
    if r.once_in(2) {
        reads::scatter(r, kind, &mut data, body);
    }
    if r.once_in(8) {
        data[body + r.pick(&[4, 28])] = 0xFF;
    }
    let just = looked(kind, &data, place).unwrap_or(8 + FIXED[kind as usize]).next_multiple_of(4);
    let size = if r.once_in(8) { 8 + 4 * r.below(just / 4) } else { just + 4 * r.below(4) - 8 };
    data.resize(data.len().max(place + size), 0x41);
    head(&mut data, place, kind, size);
    c.section(&data, place);
}

// A section of another kind, with a body of any bytes.
fn other(r: &mut Random) -> Vec<u8> {
    let mut section = vec![0; 8 + 4 * r.below(12)];
    r.fill(&mut section[8..]);
    section[..4].copy_from_slice(r.pick(&[b"grp1", b"usd1", b"pas1", b"pae1", b"1nap"]));
    let size = section.len() as u32;
    put32(&mut section, 4, size);
    section
}

/// A page of sections of all kinds and of others, sometimes cut, sometimes with a size that is too small, read from its beginning as far as it goes.
pub fn page(c: &mut Comparison, r: &mut Random) {
    let mut page = Vec::new();
    for _ in 0..1 + r.below(8) {
        let (kind, after, at) = (r.below(7) as u64, r.below(30), page.len());
        page.extend(if kind < 5 { bodies::section(kind, bodies::body(r, kind, 8, after)) } else { other(r) });
        if r.once_in(16) {
            let size = page.len() - at;
            put32(&mut page, at + 4, size.saturating_sub(4 + 4 * r.below(10)).max(8) as u32);
        }
    }
    if r.once_in(4) {
        page.truncate(r.below(page.len() + 1));
    }
    let Some(strip) = c.strip(page) else { return };
    let mut at = 0;
    while let (PANE, [_, next, _]) | (PASSED, [next, _, _]) = c.section_of(&strip, at) {
        at = next as usize;
    }
}

/// Label and caption of records whose label stands within the strip, at its end and beyond.
pub fn parts(c: &mut Comparison, r: &mut Random) {
    let kind = r.below(5) as u64;
    let mut w = records::good(r, kind);
    let mut strip = vec![0; r.below(20)];
    r.fill(&mut strip);
    if kind == TXT1 {
        let edge = [0, 1, strip.len() as u64, strip.len() as u64 + 1, 1 << 32, u64::MAX - 1, u64::MAX];
        w.words[LABEL_PLACE] = if r.once_in(2) { r.below(24) as u64 } else { r.pick(&edge) };
        w.words[LABEL_LENGTH] = if r.once_in(2) { r.below(24) as u64 } else { r.pick(&edge) };
    }
    if r.once_in(8) {
        let word = r.below(RECORD_WORDS - 1) + 1;
        w.words[word] = r.pick(&[2, 3, 4, 256, 1 << 16, 1 << 32, u64::MAX]);
    }
    let lent = &b"lent caption"[..r.below(13)];
    c.parts(&strip, &w.words, lent);
}
