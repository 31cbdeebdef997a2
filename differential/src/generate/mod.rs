//! The cases: systematic ones first, then random ones up to the number asked for.
pub mod bodies;
pub mod edges;
pub mod outputs;
pub mod reads;
pub mod records;
pub mod strips;

use crate::compare::Comparison;
use crate::random::Random;
use bidlomeqa::layout::BIG;

/// A generator of cases.
pub type Generator = fn(&mut Comparison, &mut Random);

/// Those that go through a class of inputs whole.
pub const SYSTEMATIC: [(&str, Generator); 24] = [
    ("read: cut at every length", reads::cut),
    ("read: every byte value", reads::bytes),
    ("read: all text flags", reads::flags),
    ("read: float classes", reads::floats),
    ("read: UTF-8 edges", edges::utf8),
    ("read: UTF-16 edges", edges::utf16),
    ("read: offsets", reads::offsets),
    ("read: counts at limits", reads::counts),
    ("read: short lists", reads::lists),
    ("read: places", reads::places),
    ("read: section headers", strips::headers),
    ("read: sections of every size", strips::every_section),
    ("read: sections that just hold", strips::just_kept),
    ("read: 16 MiB buffers", reads::large),
    ("write: every byte value", outputs::bytes),
    ("write: all text flags", outputs::flags),
    ("write: float classes", outputs::floats),
    ("write: names and labels", outputs::names),
    ("write: UTF-16 edges", outputs::utf16),
    ("write: counts at limits", outputs::counts),
    ("write: words beyond their bounds", outputs::bounds),
    ("write: outputs of every length", outputs::room),
    ("write: 16 MiB outputs", outputs::large),
    ("strips: outputs of every length", strips::every_length),
];

/// Those that make one random step.
pub const RANDOM: [(&str, Generator); 7] = [
    ("read: random bodies", reads::random),
    ("read: random offsets", reads::random_offsets),
    ("write: random records", outputs::random),
    ("strips: random lists", strips::random),
    ("strips: random sections", strips::sections),
    ("strips: random sizes", strips::sizes),
    ("label and caption", strips::parts),
];

/// Those of a big-endian run alone.
pub const BIG_ENDIAN: [(&str, Generator); 1] = [("strips: random pages", strips::page)];

fn random(order: u64) -> impl Iterator<Item = &'static (&'static str, Generator)> + Clone {
    RANDOM.iter().chain(BIG_ENDIAN.iter().filter(move |_| order == BIG))
}

/// Runs everything, at least `cases` of them.
pub fn run(c: &mut Comparison, seed: u64, cases: u64) {
    for (i, (name, generator)) in SYSTEMATIC.iter().enumerate() {
        c.generator = name;
        generator(c, &mut Random(seed ^ (i as u64) << 32));
    }
    let mut r = Random(seed);
    for (name, generator) in random(c.order).cycle() {
        if c.tally.cases >= cases {
            break;
        }
        c.generator = name;
        for _ in 0..64 {
            generator(c, &mut r);
        }
    }
}

/// A short run with some of everything.
pub fn sample(c: &mut Comparison, seed: u64) {
    let mut r = Random(seed);
    for (name, generator) in random(c.order) {
        c.generator = name;
        for _ in 0..2000 {
            generator(c, &mut r);
        }
    }
}
