//! How long reading takes as strips grow: nanoseconds a byte for strips of 1, 10 and 100 times a page of 600 panes, and of 16 MiB.
//!
//! A pane that is read keeps to its section. It has at most four parts (of a text box: fixed bytes, text, label, line table; of a window: fixed bytes, content, frame
//! table, and frames, of which each has its four bytes in the table), they may lie over one another, and none is longer than the section. So a strip that is read
//! to its end takes time linear in its bytes, whoever wrote it. What a byte takes goes by what the sections are: here are pages, and the strips that were found to
//! take longest.
//!
//! A text box that is refused by 19 may have had its label looked at far behind its section, up to the strip's end: the refusal is known only then. A walk stops
//! there. A caller that goes on behind each refused section, by its size, can take a time that is quadratic in the strip's bytes, as all reading could before
//! there was 19.
use super::{least, lent, page, Lent};
use bidlomeqa::calls::{self, ReadLists};
use bidlomeqa::layout::*;
use differential::oracle::LIMIT;
use differential::random::Random;
use std::hint::black_box;

fn put16(data: &mut [u8], at: usize, number: usize) {
    data[at..at + 2].copy_from_slice(&(number as u16).to_le_bytes());
}

fn put32(data: &mut [u8], at: usize, number: usize) {
    data[at..at + 4].copy_from_slice(&(number as u32).to_le_bytes());
}

// A section of so many bytes, all zero but for its header.
fn section(letters: &[u8; 4], size: usize) -> Vec<u8> {
    let mut data = vec![0; size];
    data[..4].copy_from_slice(letters);
    put32(&mut data, 4, size);
    data
}

// Characters of UTF-8, as many as there is room for, and letters in the rest. They are picked from all rows of Table 3-7 in a random order, so that no step over
// one tells the next. No byte is one that would be half of a surrogate pair in UTF-16.
fn characters(r: &mut Random, to: &mut [u8]) {
    let rows: [&[u8]; 9] = [
        b"A",
        b"\xC2\x80",
        b"\xE0\xA0\x80",
        b"\xE1\x80\x80",
        b"\xED\x80\x80",
        b"\xEE\x80\x80",
        b"\xF0\x90\x80\x80",
        b"\xF1\x80\x80\x80",
        b"\xF4\x80\x80\x80",
    ];
    let mut at = 0;
    while at < to.len() {
        let character = r.pick(&rows);
        let character = if character.len() <= to.len() - at { character } else { b"A" };
        to[at..at + character.len()].copy_from_slice(character);
        at += character.len();
    }
}

// A base pane, its names as long as they can be.
fn named(r: &mut Random) -> Vec<u8> {
    let mut data = section(b"pan1", 84);
    characters(r, &mut data[12..36]);
    characters(r, &mut data[36..44]);
    data
}

// A window with as many frames and quads as share the bytes of its section: the frame table is all of it but the letters and the size, and every offset in it is one of
// the section's, the content begins in the names.
fn shared_window(size: usize) -> Vec<u8> {
    let mut data = section(b"wnd1", size);
    data[44] = ((size - 48) / 32).min(255) as u8; // the content's quads
    data[100] = ((size - 8) / 4).min(255) as u8; // frames
    put32(&mut data, 104, 26); // content
    put32(&mut data, 108, 8); // table
    data
}

// A text box whose label is the rest of its section, and whose text and line table are as much of the same bytes as they can be.
fn shared_text_box(r: &mut Random, size: usize) -> Vec<u8> {
    let mut data = section(b"txt1", size);
    let label = size - 169;
    characters(r, &mut data[168..size - 1]);
    put16(&mut data, 86, label.min(65534));
    put16(&mut data, 94, 0x40);
    put32(&mut data, 100, 168);
    put32(&mut data, 128, 168);
    let lines = (168..size).find(|at| data[*at] > 0xF0 && at + 1 + 8 * usize::from(data[*at]) <= size);
    put32(&mut data, 160, lines.unwrap_or(0));
    data
}

// The section again and again, as often as there is room in the length.
fn repeated(section: &[u8], length: usize) -> Vec<u8> {
    section.repeat((length / section.len()).max(1))
}

// Sections of one size that differ, likewise.
fn different(seed: u64, length: usize, section: impl Fn(&mut Random) -> Vec<u8>) -> Vec<u8> {
    let mut r = Random(seed);
    let mut strip = section(&mut r);
    let size = strip.len();
    while strip.len() + size <= length {
        strip.extend(section(&mut r));
    }
    strip
}

// Text boxes with no more than their fixed bytes, and a section of another kind in which all of them have their label: it has no NUL but at its end.
fn far_labels(length: usize) -> Vec<u8> {
    let boxes = length / 2 / 168;
    let mut data = section(b"txt1", 168).repeat(boxes);
    let rest = (length - data.len()) & !3;
    let label = data.len() + 8;
    for at in (0..data.len()).step_by(168) {
        put32(&mut data, at + 128, label - at);
    }
    let mut last = section(b"usd1", rest);
    last[8..rest - 1].fill(b'A');
    data.extend(last);
    data
}

// A section read: what it returns, and where the next section is by the answer.
fn read_section(bytes: &[u8], place: usize, lent: &mut Lent) -> (u64, usize) {
    let mut answer = [0; ANSWER_WORDS];
    let Lent { quads, units, lines, frames, words } = lent;
    let mut lists = ReadLists { quads, units, lines, frames };
    let code = calls::read_section(LITTLE, bytes, place, &mut lists, words, &mut answer);
    black_box(&words);
    (code, if code == PANE { answer[1] } else { answer[0] } as usize)
}

// Reads the strip to its end; none of it is refused.
fn read_all(bytes: &[u8], lent: &mut Lent) {
    let mut place = 0;
    loop {
        match read_section(bytes, place, lent) {
            (PANE | PASSED, next) => place = next,
            (code, number) => {
                assert!(code == END && place == bytes.len(), "{code} {number} at {place}");
                return;
            }
        }
    }
}

type Strip = (&'static str, Box<dyn Fn(usize) -> Vec<u8>>);

fn strips(seed: u64, of_600: Vec<u8>) -> Vec<Strip> {
    vec![
        ("a page of 600 panes, repeated", Box::new(move |n| repeated(&of_600, n))),
        ("sections of other kinds, 8 bytes", Box::new(|n| repeated(&section(b"usd1", 8), n))),
        ("base panes, no names", Box::new(|n| repeated(&section(b"pan1", 84), n))),
        ("base panes, full names", Box::new(move |n| different(seed, n, named))),
        ("windows, 112 bytes: 26 frames, 2 quads", Box::new(|n| repeated(&shared_window(112), n))),
        ("windows, 1,028 bytes: 255 frames, 30 quads", Box::new(|n| repeated(&shared_window(1028), n))),
        ("text boxes, 1,024 bytes, parts shared", Box::new(move |n| different(seed, n, |r| shared_text_box(r, 1024)))),
        ("text boxes, 65,704 bytes, parts shared", Box::new(move |n| different(seed, n, |r| shared_text_box(r, 65704)))),
        ("one text box, its label to the strip's end", Box::new(move |n| shared_text_box(&mut Random(seed), n & !3))),
    ]
}

fn heading(what: &str, lengths: &[usize]) {
    println!("\n{what}");
    println!("  {:46}{}", "bytes", lengths.iter().map(|n| format!("{n:>12}")).collect::<String>());
}

// How long a caller takes over a strip of far labels: a walk, which stops at the first refusal, and one that steps over each refused section by its size. Of the
// latter some sections are timed, spread over the strip, and counted for all.
fn refused(lengths: &[usize], seconds: f64) {
    heading("half a strip of text boxes, 168 bytes each, whose labels are all in its other half: refused by 19", lengths);
    let [mut first, mut boxes, mut one, mut all] = [const { String::new() }; 4];
    for length in lengths {
        let (bytes, mut lent) = (far_labels(*length), lent());
        let count = length / 2 / 168;
        let ns = least(seconds, || assert_eq!(read_section(black_box(&bytes), 0, &mut lent), (REFUSED, 19)));
        let sample: Vec<usize> = (0..count).step_by((count / 16).max(1)).collect();
        let of_sample = least(seconds, || {
            for i in &sample {
                assert_eq!(read_section(black_box(&bytes), 168 * i, &mut lent), (REFUSED, 19));
            }
        });
        let mean = of_sample / sample.len() as f64;
        first += &format!("{:12.3}", ns / 1e6);
        boxes += &format!("{count:12}");
        one += &format!("{:12.3}", mean / 1e6);
        all += &format!("{:12.2}", mean / 1e9 * count as f64);
    }
    println!("  {:46}{first}", "a walk, to the first refusal: ms");
    println!("  {:46}{boxes}", "text boxes");
    println!("  {:46}{one}", "one of them, the mean of some: ms");
    println!("  {:46}{all}", "so all, stepped over by their sizes: s");
}

/// Prints how reading grows.
pub fn print(seed: u64, seconds: f64) {
    let of_600 = page(&mut Random(seed), 600, None).bytes;
    let lengths = [of_600.len(), 10 * of_600.len(), 100 * of_600.len(), LIMIT];
    heading("strips that are read to their end: nanoseconds a byte", &lengths);
    let mut worst = ("", 0.0);
    for (name, make) in strips(seed, of_600) {
        let mut row = String::new();
        for length in lengths {
            let (bytes, mut lent) = (make(length), lent());
            let ns = least(seconds, || read_all(black_box(&bytes), &mut lent)) / bytes.len() as f64;
            row += &format!("{ns:12.2}");
            if ns > worst.1 {
                worst = (name, ns);
            }
        }
        println!("  {name:46}{row}");
    }
    println!("  the most: {:.2} ns a byte, {:.0} ms for 16 MiB ({})", worst.1, worst.1 * LIMIT as f64 / 1e6, worst.0);
    refused(&lengths, seconds);
}
