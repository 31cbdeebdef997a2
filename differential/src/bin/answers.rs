//! Writes the fixed list of nnbfl's answers that the program `replay` goes through: `answers FOLDER` writes FOLDER/stdin and FOLDER/stdout.
//!
//! A line of stdin is the hexadecimal digits of one section at place 0. A line of stdout is `no NUMBER a b`, `pass N`, `end`, or `pane R N HEX`: the place after
//! the body, the next section, and the section written back, which is what nnbfl writes of the pane that it read. Refusals 6, 7 and 8, `pass` and
//! `end` are document 01's, and refusal 19 document 02's, which nnbfl has no word for; the rest is nnbfl's.
use bidlomeqa::layout::*;
use differential::generate::bodies::{self, put16, put32};
use differential::generate::{edges, reads};
use differential::oracle;
use differential::random::{Random, FLOATS};
use differential::whole::*;
use std::collections::HashSet;
use std::path::PathBuf;

const LONGEST: usize = 4096;

struct List {
    stdin: String,
    stdout: String,
    lines: usize,
    seen: HashSet<Vec<u8>>,
}

fn hex(bytes: &[u8]) -> String {
    bytes.iter().map(|b| format!("{b:02X}")).collect()
}

fn answer(data: &[u8]) -> Option<String> {
    let mut w = Whole::default();
    let (code, [a, b, c]) = oracle::read_section(data, 0, FULL, &mut w);
    Some(match code {
        END => "end".into(),
        PASSED => format!("pass {a}"),
        REFUSED => format!("no {a} {b} {c}"),
        _ => {
            let back = oracle::written(&w, true, 0, Vec::new());
            if back.len() > LONGEST {
                return None;
            }
            format!("pane {a} {b} {}", hex(&back))
        }
    })
}

impl List {
    /// Takes the line, unless it was taken before or is too long.
    fn push(&mut self, data: &[u8]) {
        if data.len() > LONGEST || !self.seen.insert(data.to_vec()) {
            return;
        }
        if let Some(answer) = answer(data) {
            self.stdin += &hex(data);
            self.stdin.push('\n');
            self.stdout += &answer;
            self.stdout.push('\n');
            self.lines += 1;
        }
    }

    /// A body of the kind at 8 as a section.
    fn body(&mut self, kind: u64, data: &[u8]) {
        self.push(&bodies::section(kind, data.to_vec()));
    }
}

// Each kind whole, and cut where the answer is one not yet seen.
fn cuts(list: &mut List, r: &mut Random) {
    for kind in 0..5 {
        let whole = bodies::section(kind, bodies::template(r, kind, 8));
        list.push(&whole);
        let mut answers = HashSet::new();
        for n in 0..whole.len() {
            let mut part = whole[..n].to_vec();
            if n >= 8 {
                put32(&mut part, 4, 8);
            }
            if answer(&part).is_some_and(|a| answers.insert(a)) {
                list.push(&part);
            }
        }
    }
}

fn headers(list: &mut List, r: &mut Random) {
    list.push(b"");
    for letters in [b"grp1", b"pan2", b"PAN1", b"ali1"] {
        for size in [0, 4, 7, 8, 9, 12, 84, 88, 96, 97, 100, 0xFFFF_FFFC] {
            let mut data = bodies::section(ALI1, bodies::template(r, ALI1, 8));
            data[..4].copy_from_slice(letters);
            put32(&mut data, 4, size);
            list.push(&data);
        }
    }
}

// Values of packed bytes, by kind and place in the body.
fn packed(list: &mut List, r: &mut Random) {
    let bytes: [(u64, usize); 16] = [
        (PAN1, 0),
        (PAN1, 1),
        (PAN1, 2),
        (PAN1, 3),
        (PIC1, 95),
        (TXT1, 84),
        (TXT1, 85),
        (WND1, 93),
        (WND1, 166),
        (WND1, 170),
        (ALI1, 84),
        (ALI1, 85),
        (ALI1, 86),
        (WND1, 94),
        (WND1, 123),
        (WND1, 167),
    ];
    for (kind, at) in bytes {
        let mut data = bodies::template(r, kind, 8);
        for value in [0, 1, 2, 3, 4, 5, 6, 8, 0x10, 0x1F, 0x20, 0x40, 0x59, 0x80, 0xE4, 0xEC, 0xF9, 0xFF] {
            data[8 + at] = value;
            list.body(kind, &data);
        }
    }
    let mut data = bodies::template(r, TXT1, 8);
    for flags in (0..16).map(|bit| 1 << bit).chain([0, 0x40, 0x50, 0x1040, 0x9040, 0xFFFF, 0xFFEF]) {
        for character in [0, 7] {
            put16(&mut data, 8 + 86, flags);
            put32(&mut data, 8 + 156, character);
            list.body(TXT1, &data);
        }
    }
}

// Every class of floats in every word of four bytes, a class to a body.
fn floats(list: &mut List, r: &mut Random) {
    for (i, bits) in FLOATS.into_iter().enumerate() {
        let kind = i as u64 % 5;
        let mut data = bodies::template(r, kind, 8);
        for word in 0..10 {
            put32(&mut data, 44 + 4 * word, FLOATS[(i + word) % FLOATS.len()]);
        }
        match kind {
            PIC1 => put32(&mut data, 8 + 96, bits),
            TXT1 => {
                for at in [88, 104, 108, 112, 116, 124, 128, 132, 136, 148, 169, 173, 177, 181] {
                    put32(&mut data, 8 + at, bits);
                }
            }
            WND1 => put32(&mut data, 8 + 124, bits),
            ALI1 => put32(&mut data, 8 + 80, bits),
            _ => {}
        }
        list.body(kind, &data);
    }
}

fn strings(list: &mut List, r: &mut Random) {
    let mut texts: Vec<Vec<u8>> = bodies::STRINGS.iter().map(|s| s.to_vec()).collect();
    for first in [0xC1, 0xC2, 0xDF, 0xE0, 0xE1, 0xED, 0xEE, 0xF0, 0xF1, 0xF4, 0xF5] {
        for second in [0x7F, 0x80, 0x8F, 0x90, 0x9F, 0xA0, 0xBF, 0xC0] {
            texts.push(vec![first, second, 0x80, 0x80].into_iter().take(2 + (first >= 0xE0) as usize + (first >= 0xF0) as usize).collect());
        }
    }
    for (i, text) in texts.iter().enumerate() {
        let mut data = bodies::template(r, PAN1, 8);
        data[12..36].fill(0);
        let count = text.len().min(24);
        data[12..12 + count].copy_from_slice(&text[..count]);
        list.body(PAN1, &data);
        if i % 4 == 0 {
            let mut data = bodies::template(r, ALI1, 8);
            let count = text.len().min(8);
            data[36..44].fill(0);
            data[36..36 + count].copy_from_slice(&text[..count]);
            list.body(ALI1, &data);
            let mut data = bodies::template(r, TXT1, 8);
            let end = data.len() as u32;
            put32(&mut data, 8 + 120, end);
            data.extend(text);
            data.push(0);
            list.body(TXT1, &data);
        }
    }
    for a in edges::UNITS {
        for b in [0x41, 0xD800, 0xDC00, 0xE000] {
            let mut data = bodies::template(r, TXT1, 8);
            put16(&mut data, 168, a);
            put16(&mut data, 170, b);
            list.body(TXT1, &data);
        }
    }
}

fn offsets(list: &mut List, r: &mut Random) {
    for (kind, fields) in [(TXT1, [92, 120, 152, 156]), (WND1, [96, 100, 156, 160])] {
        for field in fields {
            let mut data = bodies::template(r, kind, 8);
            let length = bodies::section(kind, data.clone()).len() as u32;
            for offset in [0, 1, 7, 8, 11, 84, 100, 168, length - 9, length - 4, length - 1, length, length + 1, 0x7FFF_FFFF, 0xFFFF_FFFF] {
                put32(&mut data, 8 + field, offset);
                list.body(kind, &data);
            }
        }
    }
}

// Labels that reach the end of the buffer: with no NUL, with one at the very end, and empty.
fn labels(list: &mut List, r: &mut Random) {
    for length in 200..208 {
        let mut data = bodies::template(r, TXT1, 8);
        data.resize(length, 0x41);
        for offset in [187, length as u32 - 2, length as u32 - 1] {
            put32(&mut data, 8 + 120, offset);
            list.body(TXT1, &data);
            data[length - 1] = 0;
            list.body(TXT1, &data);
            data[length - 1] = 0x41;
        }
    }
}

fn counts(list: &mut List, r: &mut Random) {
    for count in [0, 1, 2, 3, 8, 60, 255] {
        for (kind, at, each) in [(PIC1, 94, 32), (WND1, 122, 32), (WND1, 92, 4), (TXT1, 168, 8)] {
            for less in [0, 1] {
                let mut data = bodies::template(r, kind, 8);
                data[8 + at] = count as u8;
                let from = data.len();
                data.resize(from + (each * count + 8usize).saturating_sub(9 * less), 0);
                r.fill(&mut data[from..]);
                list.body(kind, &data);
            }
        }
    }
    for length in [0, 1, 2, 3, 5, 7, 9, 100, 0xFFFF] {
        let mut data = bodies::template(r, TXT1, 8);
        put16(&mut data, 8 + 78, length);
        data.resize(400, 0x41);
        list.body(TXT1, &data);
    }
}

fn random(list: &mut List, r: &mut Random) {
    for i in 0..200 {
        let kind = i % 5;
        let mut data = bodies::body(r, kind, 8, (i % 7) as usize);
        if i % 3 == 0 {
            for field in [92, 96, 100, 120, 152] {
                if (kind == TXT1 || kind == WND1) && data.len() > 8 + field + 4 && r.once_in(3) {
                    let to = reads::offset(r, data.len());
                    put32(&mut data, 8 + field, to);
                }
            }
        }
        if data.len() < 1200 {
            list.body(kind, &data);
        }
    }
}

fn main() -> std::io::Result<()> {
    let folder = PathBuf::from(std::env::args().nth(1).expect("answers FOLDER"));
    let mut list = List { stdin: String::new(), stdout: String::new(), lines: 0, seen: HashSet::new() };
    let mut r = Random(6);
    for part in [headers, cuts, packed, floats, strings, offsets, labels, counts, random] {
        part(&mut list, &mut r);
    }
    std::fs::write(folder.join("stdin"), list.stdin)?;
    std::fs::write(folder.join("stdout"), list.stdout)?;
    println!("{} lines", list.lines);
    Ok(())
}
