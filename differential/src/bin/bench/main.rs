//! Reads and writes pages of 40, 600 and 6,000 panes of mixed kinds with nnbfl and with the library, in one run on the same bytes.
//!
//! `bench [--seed N] [--seconds S] [--panes N] [--kind N] [--only NAME]`: S seconds are given to each figure; `--kind` makes pages of one kind; `--only` makes
//! 100 calls of one contender and times nothing, for counting instructions.
//!
//! `bench --growth [--seed N] [--seconds S]`: how reading with the library grows with the strip, and the strips that take longest (`growth`).
mod growth;

use bidlomeqa::calls::{self, ReadLists};
use bidlomeqa::layout::*;
use bidlomeqa::{Buffer, ByteOrder, Record, Section};
use differential::compare::Comparison;
use differential::fault::Fault;
use differential::generate::{bodies, records};
use differential::mirror;
use differential::oracle;
use differential::panes::AnyPane;
use differential::random::Random;
use differential::whole::*;
use nnbfl::bflyt::pane::{AlignmentPane, Pane, PicturePane, TextBoxPane, WindowPane};
use nnbfl::core::{Cursor, ReadWriteable, Writer};
use std::hint::black_box;
use std::time::Instant;

/// One page in every form that a contender takes.
struct Page {
    bytes: Vec<u8>,
    panes: Vec<AnyPane>,
    wholes: Vec<Whole>,
    records: Vec<Record>,
}

// As a page has it: names and labels of ASCII letters seven times in eight, up to 8 quads, frames and lines, up to 63 units of text.
fn record(r: &mut Random, kind: u64) -> Whole {
    let mut w = records::good(r, kind);
    let floats = |r: &mut Random, count: usize| (0..count).map(|_| r.float()).collect();
    let (quads, lines, units) = (r.below(9), r.below(9), r.below(64));
    if !r.once_in(8) {
        records::put_pane_name(&mut w, &b"N_Pane_Name_Of_24_Bytes_"[..3 + r.below(22)]);
        records::put_user_name(&mut w, &b"UserName"[..r.below(9)]);
        w.label = b"Label_Of_A_Text_Box"[..r.below(20)].to_vec();
    }
    w.quads = floats(r, 8 * quads);
    if w.is(LINES_PRESENT) {
        w.lines = floats(r, 2 * lines);
    }
    if w.is(TEXT_PRESENT) {
        w.units = bodies::units(r, units);
        w.words[TEXT_LENGTH] = 2 * units as u64;
    }
    w.frames = (0..r.below(9)).flat_map(|i| [i as u16, i as u16 % 6]).collect();
    w
}

fn page(r: &mut Random, count: usize, kind: Option<u64>) -> Page {
    let wholes: Vec<Whole> = (0..count as u64).map(|i| record(r, kind.unwrap_or(i % 5))).collect();
    let mut bytes = Vec::new();
    for w in &wholes {
        let section = oracle::written(w, true, bytes.len(), Vec::new());
        bytes.extend_from_slice(&section[bytes.len()..]);
    }
    let panes = wholes.iter().map(AnyPane::of).collect();
    let records = bidlomeqa::read_strip(ByteOrder::Little, &bytes).expect("a page that nnbfl wrote is read");
    Page { bytes, panes, wholes, records }
}

// The page is read and written alike by both before it is timed.
fn check(page: &Page) {
    let mut c = Comparison::new(LITTLE, false, Fault::none());
    let mut place = 0;
    for w in &page.wholes {
        place = c.section(&page.bytes, place).1[1] as usize;
        assert!(c.last().normal() == w.normal());
    }
    let mut out = vec![0; page.bytes.len()];
    write_flat(LITTLE, page, &mut out);
    assert!(out == page.bytes && write_nnbfl(page, false) == page.bytes && c.tally.differences == 0);
    write_flat(BIG, page, &mut out);
    assert!(mirror::strip(&page.bytes) == Some(out));
}

fn read_nnbfl(bytes: &[u8]) {
    let mut place = 0;
    while place < bytes.len() {
        let mut cursor = Cursor { data: bytes, pos: place, section_start: Some(place), ..Default::default() };
        let letters = cursor.read_u32().unwrap().to_le_bytes();
        let size = cursor.read_u32().unwrap() as usize;
        match &letters {
            b"pan1" => drop(black_box(Pane::parse(&mut cursor).unwrap())),
            b"pic1" => drop(black_box(PicturePane::parse(&mut cursor).unwrap())),
            b"txt1" => drop(black_box(TextBoxPane::parse(&mut cursor).unwrap())),
            b"wnd1" => drop(black_box(WindowPane::parse(&mut cursor).unwrap())),
            _ => drop(black_box(AlignmentPane::parse(&mut cursor).unwrap())),
        }
        place += size;
    }
}

struct Lent {
    quads: Vec<u32>,
    units: Vec<u16>,
    lines: Vec<u32>,
    frames: Vec<u16>,
    words: [u64; RECORD_WORDS],
}

fn read_flat(order: u64, bytes: &[u8], lent: &mut Lent) {
    let mut place = 0;
    let mut answer = [0; ANSWER_WORDS];
    let Lent { quads, units, lines, frames, words } = lent;
    let mut lists = ReadLists { quads, units, lines, frames };
    while calls::read_section(order, bytes, place, &mut lists, words, &mut answer) == PANE {
        black_box(&words);
        place = answer[1] as usize;
    }
    assert_eq!(place, bytes.len());
}

fn read_views(bytes: &[u8], buffer: &mut Buffer) {
    let mut place = 0;
    while let Ok(Section::Pane { view, next, .. }) = buffer.read_section(ByteOrder::Little, bytes, place) {
        black_box((view.base(), view.quads(), view.text(), view.label(), view.frames()));
        place = next;
    }
}

fn read_records(bytes: &[u8], buffer: &mut Buffer) {
    let mut place = 0;
    while let Ok(Section::Pane { view, next, .. }) = buffer.read_section(ByteOrder::Little, bytes, place) {
        black_box(view.record());
        place = next;
    }
}

// With `forget` the breadcrumbs of a pane are dropped once it is written; nnbfl keeps those of the whole page.
fn write_nnbfl(page: &Page, forget: bool) -> Vec<u8> {
    let mut writer = Writer::new();
    for (pane, w) in page.panes.iter().zip(&page.wholes) {
        let place = writer.pos();
        writer.section_start = Some(place);
        writer.write_bytes(LETTERS[w.kind() as usize]);
        let size = writer.write_placeholder_u32();
        pane.write(&mut writer);
        writer.align(4);
        let end = writer.pos();
        writer.patch_u32(size, (end - place) as u32);
        if forget {
            writer.breadcrumbs.clear();
        }
    }
    writer.buffer
}

fn write_flat(order: u64, page: &Page, out: &mut [u8]) {
    let mut answer = [0; ANSWER_WORDS];
    let mut place = 0;
    for w in &page.wholes {
        assert_eq!(calls::write_section(order, &w.words, w.lists(), out, place, &mut answer), WRITTEN);
        place = answer[0] as usize;
    }
}

fn write_records(page: &Page, buffer: &mut Buffer, out: &mut [u8]) {
    let mut place = 0;
    for record in &page.records {
        place = buffer.write_section(ByteOrder::Little, record, out, place).unwrap();
    }
}

/// The least time of a call, in nanoseconds, of many rounds in the seconds given.
fn least(seconds: f64, mut call: impl FnMut()) -> f64 {
    let mut calls = 1;
    loop {
        let start = Instant::now();
        (0..calls).for_each(|_| call());
        if start.elapsed().as_secs_f64() > 0.002 {
            break;
        }
        calls *= 2;
    }
    let (begin, mut best) = (Instant::now(), f64::INFINITY);
    while begin.elapsed().as_secs_f64() < seconds {
        let start = Instant::now();
        (0..calls).for_each(|_| call());
        best = best.min(start.elapsed().as_secs_f64() * 1e9 / f64::from(calls));
    }
    best
}

type Contender<'a> = (&'a str, Box<dyn FnMut() + 'a>);

// The first of reading and the first of writing are nnbfl's, which the others are compared with.
fn contenders<'a>(
    page: &'a Page,
    big: &'a [u8],
    lents: &'a mut [Lent; 2],
    buffers: &'a mut [Buffer; 3],
    outs: &'a mut [Vec<u8>; 4],
) -> Vec<Contender<'a>> {
    let bytes = &page.bytes;
    let [views, reads, writes] = buffers;
    let [copy, flat, flat_big, typed] = outs;
    let [lent, lent_big] = lents;
    vec![
        ("memcpy", Box::new(move || copy.copy_from_slice(black_box(bytes)))),
        ("read nnbfl", Box::new(move || read_nnbfl(black_box(bytes)))),
        ("read library", Box::new(move || read_flat(LITTLE, black_box(bytes), lent))),
        ("read library, big", Box::new(move || read_flat(BIG, black_box(big), lent_big))),
        ("read crate, views", Box::new(move || read_views(black_box(bytes), views))),
        ("read crate, records", Box::new(move || read_records(black_box(bytes), reads))),
        ("write nnbfl", Box::new(move || drop(black_box(write_nnbfl(black_box(page), false))))),
        ("write nnbfl, forgetful", Box::new(move || drop(black_box(write_nnbfl(black_box(page), true))))),
        ("write library", Box::new(move || write_flat(LITTLE, black_box(page), flat))),
        ("write library, big", Box::new(move || write_flat(BIG, black_box(page), flat_big))),
        ("write crate, records", Box::new(move || write_records(black_box(page), writes, typed))),
    ]
}

fn lent() -> Lent {
    Lent { quads: vec![0; FULL[0]], units: vec![0; FULL[1]], lines: vec![0; FULL[2]], frames: vec![0; FULL[3]], words: [0; RECORD_WORDS] }
}

fn measure(page: Page, seconds: f64, only: Option<&str>) {
    let count = page.wholes.len();
    let (mut lents, length) = ([lent(), lent()], page.bytes.len());
    let (mut buffers, mut outs) = ([Buffer::new(), Buffer::new(), Buffer::new()], [0; 4].map(|_| vec![0; length]));
    let big = mirror::strip(&page.bytes).expect("no two parts that nnbfl writes share a byte");
    if let Some(name) = only {
        for (contender, mut call) in contenders(&page, &big, &mut lents, &mut buffers, &mut outs) {
            if contender == name {
                (0..100).for_each(|_| call());
            }
        }
        return;
    }
    check(&page);
    println!("\n{count} panes, {length} bytes, {:.0} bytes a pane", length as f64 / count as f64);
    println!("  {:22} {:>9} {:>10} {:>14}", "", "ns a pane", "MB/s", "nnbfl's time /");
    let mut nnbfl = f64::NAN;
    for (name, call) in contenders(&page, &big, &mut lents, &mut buffers, &mut outs) {
        let ns = least(seconds, call);
        if name.ends_with("nnbfl") {
            nnbfl = ns;
        }
        let ratio = if nnbfl.is_nan() { String::new() } else { format!("{:.2}", nnbfl / ns) };
        println!("  {name:22} {:9.1} {:10.0} {ratio:>14}", ns / count as f64, length as f64 * 1e3 / ns);
    }
}

fn main() {
    let words: Vec<String> = std::env::args().skip(1).collect();
    let value = |name: &str| words.iter().position(|w| w == name).and_then(|i| words.get(i + 1));
    let seed = value("--seed").map_or(1, |n| n.parse().expect("a number"));
    let seconds = value("--seconds").map_or(0.5, |n| n.parse().expect("a number"));
    let kind = value("--kind").map(|n| n.parse().expect("a number"));
    let only = value("--only").map(String::as_str);
    println!("seed {seed}; the least time of many rounds in {seconds} s each; one thread");
    if words.iter().any(|w| w == "--growth") {
        return growth::print(seed, seconds);
    }
    println!("The lent lists, records and outputs are neither allocated nor cleared between calls; nnbfl allocates what it hands back, and a new writer a page.");
    let one = value("--panes").map(|n| vec![n.parse().expect("a number")]);
    for count in one.unwrap_or(vec![40, 600, 6000]) {
        measure(page(&mut Random(seed), count, kind), seconds, only);
    }
}
