//! Strings at the edges of UTF-8 and UTF-16.
use super::bodies::{self, put16, put32};
use crate::compare::Comparison;
use crate::random::Random;
use crate::whole::*;
use bidlomeqa::layout::BIG;

/// Bytes at the bounds of Table 3-7.
pub const BYTES: [u8; 25] = [
    0x00, 0x01, 0x7F, 0x80, 0x8F, 0x90, 0x9F, 0xA0, 0xBF, 0xC0, 0xC1, 0xC2, 0xDF, 0xE0, 0xE1, 0xEC, 0xED, 0xEE, 0xEF, 0xF0, 0xF1, 0xF3, 0xF4, 0xF5,
    0xFF,
];

/// Units at the bounds of the surrogates.
pub const UNITS: [u16; 12] = [0, 1, 0x7F, 0xD7FF, 0xD800, 0xDBFF, 0xDC00, 0xDFFF, 0xE000, 0xFFFD, 0xFFFE, 0xFFFF];

/// All pairs of bytes and all quadruples of edge bytes in the name; edge triples in the user name and the label, and at the end of the fields.
pub fn utf8(c: &mut Comparison, r: &mut Random) {
    let mut pane = bodies::template(r, PAN1, 10);
    for pair in 0..=0xFFFFu16 {
        put16(&mut pane, 14, pair);
        c.body(PAN1, &pane, 10);
    }
    put32(&mut pane, 14, 0);
    let mut text = bodies::template(r, TXT1, 11);
    put32(&mut text, 11 + 120, 190);
    if c.order == BIG {
        put32(&mut text, 11 + 152, 0); // a line table would share bytes with the label, which then has no mirror
    }
    text.resize(11 + 200, 0x42);
    text[11 + 199] = 0;
    for a in BYTES {
        for b in BYTES {
            for d in BYTES {
                for e in BYTES {
                    pane[14..18].copy_from_slice(&[a, b, d, e]);
                    c.body(PAN1, &pane, 10);
                }
                let mut ends = pane.clone();
                ends[14..38].fill(0x61);
                ends[35..38].copy_from_slice(&[a, b, d]);
                c.body(PAN1, &ends, 10);
                ends[14] = 0;
                ends[38..46].fill(0x61);
                ends[43..46].copy_from_slice(&[a, b, d]);
                c.body(PAN1, &ends, 10);
                text[11 + 182..11 + 185].copy_from_slice(&[a, b, d]);
                c.body(TXT1, &text, 11);
            }
        }
    }
}

/// Quadruples of edge units, with even and odd text lengths; in random text, edge units anywhere.
pub fn utf16(c: &mut Comparison, r: &mut Random) {
    let mut text = bodies::template(r, TXT1, 8);
    put32(&mut text, 8 + 92, 190);
    for offset in [120, 152] {
        put32(&mut text, 8 + offset, 0);
    }
    text.resize(240, 0);
    for i in 0..UNITS.len().pow(4) {
        let unit = |n: u32| UNITS[i / UNITS.len().pow(n) % UNITS.len()];
        put16(&mut text, 8 + 78, [6, 7, 8, 9][i % 4]);
        for n in 0..4 {
            put16(&mut text, 190 + 2 * n as usize, unit(n));
        }
        c.body(TXT1, &text, 8);
    }
    for _ in 0..20_000 {
        let count = r.below(20);
        put16(&mut text, 8 + 78, (2 * count + r.below(2)) as u16);
        for (n, unit) in bodies::units(r, count).into_iter().enumerate() {
            put16(&mut text, 190 + 2 * n, if r.once_in(40) { r.pick(&UNITS) } else { unit });
        }
        c.body(TXT1, &text, 8);
    }
}
