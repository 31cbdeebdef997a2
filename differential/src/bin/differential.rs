//! Compares nnbfl with the static library: `differential [--big] [--cases N] [--seed N] [--fault NAME | --faults]` or `differential --outside`.
//!
//! With `--big` every call is made big-endian, on the mirror of nnbfl's bytes.
use bidlomeqa::layout::{BIG, LITTLE, RECORD_WORDS};
use differential::compare::Comparison;
use differential::fault::{faults, Fault, FAULTS, TURNED};
use differential::generate::{self, bodies, records};
use differential::outside;
use differential::random::Random;
use std::process::exit;

const USAGE: &str = "differential [--big] [--cases N] [--seed N] [--fault NAME | --faults]\ndifferential --outside";

fn usage() -> ! {
    let (all, big) = (FAULTS.map(|(name, _)| name).join(" "), TURNED.map(|(name, _)| name).join(" "));
    eprintln!("{USAGE}\nfaults: {all}\nfaults of --big alone: {big}");
    exit(2)
}

// Whether each of the faults that were made was reported, and nothing else.
fn reported(c: &Comparison) -> bool {
    c.fault.made > 0 && c.tally.differences == c.fault.made
}

// Each fault in a short run of its own, and no fault in one more.
fn try_named(order: u64, seed: u64) -> bool {
    let mut all = true;
    for (name, _) in faults(order) {
        let mut c = Comparison::new(order, true, Fault::named(order, name, 7).unwrap());
        generate::sample(&mut c, seed);
        println!("{name}: made {} times, reported {} times{}", c.fault.made, c.tally.differences, if reported(&c) { "" } else { ": MISSED" });
        all &= reported(&c);
    }
    let mut c = Comparison::new(order, true, Fault::none());
    generate::sample(&mut c, seed);
    println!("no fault: {} cases, {} differences", c.tally.cases, c.tally.differences);
    all && c.tally.differences == 0
}

// Every word of a record that is read, and every byte of a section that is written, changed alone.
fn try_each(order: u64, seed: u64) -> bool {
    let (mut tried, mut missed) = (0, 0);
    let mut count = |c: &Comparison, what: String| {
        tried += 1;
        if !reported(c) {
            missed += 1;
            println!("{what}: MISSED");
        }
    };
    for kind in 0..5 {
        let mut r = Random(seed);
        let body = bodies::template(&mut r, kind, 8);
        for word in 0..RECORD_WORDS {
            let mut c = Comparison::new(order, true, Fault::word(word));
            c.body(kind, &body, 8);
            count(&c, format!("word {word} of kind {kind}"));
        }
        let record = records::good(&mut r, kind);
        let end = Comparison::new(order, true, Fault::none()).write(&record, true, 4, 20_000).1[0] as usize;
        for byte in 0..end + 4 {
            let mut c = Comparison::new(order, true, Fault::byte(byte));
            c.write(&record, true, 4, end + 4);
            count(&c, format!("byte {byte} of kind {kind}"));
        }
    }
    println!("{tried} words and bytes changed one by one, {missed} missed");
    missed == 0
}

// What both do outside the domain, which must be what docs/DIFFERENCES.md says.
fn tell_outside() -> bool {
    let mut all = true;
    for row in outside::rows() {
        println!("{}\n  nnbfl: {}\n  here:  {}", row.what, row.nnbfl, row.library);
        if [&row.nnbfl[..], &row.library[..]] != row.known {
            println!("  NOT AS KNOWN: {:?}", row.known);
            all = false;
        }
    }
    all
}

fn main() {
    let (mut cases, mut seed, mut fault) = (10_000_000, 1, Fault::none());
    let order = if std::env::args().any(|word| word == "--big") { BIG } else { LITTLE };
    let mut words = std::env::args().skip(1).filter(|word| word != "--big");
    while let Some(word) = words.next() {
        let mut number = || words.next().and_then(|n| n.parse().ok()).unwrap_or_else(|| usage());
        match word.as_str() {
            "--cases" => cases = number(),
            "--seed" => seed = number(),
            "--fault" => fault = words.next().and_then(|n| Fault::named(order, &n, 997)).unwrap_or_else(|| usage()),
            "--faults" => exit(i32::from(!(try_named(order, seed) & try_each(order, seed)))),
            "--outside" if order == LITTLE => exit(i32::from(!tell_outside())),
            _ => usage(),
        }
    }
    println!("seed {seed}, at least {cases} cases{}", if order == BIG { ", big-endian" } else { "" });
    let mut c = Comparison::new(order, false, fault);
    generate::run(&mut c, seed, cases);
    c.tally.report();
    if c.tally.differences > 0 {
        exit(1);
    }
}
