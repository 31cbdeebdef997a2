//! How many cases there were, by generator, call, kind and outcome, and which of them differed.
use crate::oracle::Outcome;
use bidlomeqa::layout::*;
use std::collections::{BTreeMap, HashMap};
use std::time::Instant;

/// What one case was: the call, and the kind (5 where none was met).
#[derive(Clone, Copy, PartialEq, Eq, Hash, PartialOrd, Ord)]
pub struct Case {
    pub generator: &'static str,
    pub call: &'static str,
    pub kind: u64,
}

pub struct Tally {
    counts: HashMap<(Case, u64, u64), u64>,
    /// By generator: bytes that a big-endian run could not compare.
    unmirrored: BTreeMap<&'static str, u64>,
    /// By call and kind: panes whose reach nnbfl judged, and sections that are refused by 19 likewise.
    reaches: BTreeMap<(&'static str, u64), u64>,
    /// By where the reach of a section's pane lies and kind: how many are at the section's end or near it.
    ends: BTreeMap<(&'static str, u64), u64>,
    pub cases: u64,
    /// Claims about several cases together, which are no cases of their own.
    pub claims: u64,
    pub differences: u64,
    /// Says nothing while it runs.
    pub quiet: bool,
    start: Instant,
}

/// Where the reach of a pane lies, by how far it is past its section's end: the last bytes of the section before its end, just at the end, right behind it. Sections
/// end at multiples of 4, so those whose size is the least that holds the pane are the first two.
pub const ENDS: [(&str, i64, i64); 3] = [("1 to 3 before", -3, -1), ("at the end", 0, 0), ("1 to 4 past", 1, 4)];

const KINDS: [&str; 6] = ["pan1", "pic1", "txt1", "wnd1", "ali1", "-"];

fn outcome_name(code: u64, number: u64) -> String {
    match code {
        END => "end".into(),
        PASSED => "passed".into(),
        PANE => "pane".into(),
        WRITTEN => "written".into(),
        PART => "part".into(),
        BAD_WORD => "bad word".into(),
        REFUSED => format!("refused {number:2}"),
        other => format!("code {other}"),
    }
}

fn print_kinds() {
    println!("  {:14} {:11} {}", "", "", KINDS.map(|k| format!("{k:>9}")).join(""));
}

// A number for each kind, where there is one.
fn print_row(call: &str, outcome: &str, number: impl Fn(u64) -> Option<u64>) {
    let cell = |kind: u64| number(kind).map_or("        .".into(), |n| format!("{n:9}"));
    println!("  {call:14} {outcome:11} {}", [0, 1, 2, 3, 4, 5].map(cell).join(""));
}

impl Tally {
    pub fn new(quiet: bool) -> Self {
        Self {
            counts: HashMap::new(),
            unmirrored: BTreeMap::new(),
            reaches: BTreeMap::new(),
            ends: BTreeMap::new(),
            cases: 0,
            claims: 0,
            differences: 0,
            quiet,
            start: Instant::now(),
        }
    }

    pub fn seconds(&self) -> f64 {
        self.start.elapsed().as_secs_f64()
    }

    pub fn count(&mut self, case: Case, outcome: &Outcome) {
        let number = if outcome.0 == REFUSED { outcome.1[0] } else { 0 };
        *self.counts.entry((case, outcome.0, number)).or_insert(0) += 1;
        self.cases += 1;
        if !self.quiet && self.cases % 250_000 == 0 {
            println!("{:9} cases, {} differences, {:.0} s, at {}", self.cases, self.differences, self.seconds(), case.generator);
        }
    }

    /// How many cases of a call had an outcome.
    pub fn of(&self, call: &str, code: u64, number: u64) -> u64 {
        self.counts.iter().filter(|((case, c, n), _)| (case.call, *c, *n) == (call, code, number)).map(|(_, count)| count).sum()
    }

    /// Counts bytes that have no mirror, which are no case.
    pub fn without_mirror(&mut self, generator: &'static str) {
        *self.unmirrored.entry(generator).or_insert(0) += 1;
    }

    /// Counts a case whose reach nnbfl judged.
    pub fn judged_reach(&mut self, case: Case) {
        *self.reaches.entry((case.call, case.kind)).or_insert(0) += 1;
    }

    /// Counts a section whose pane looks about as far as the section goes.
    pub fn at_end(&mut self, case: Case, reach: u64, end: u64) {
        let near = ENDS.iter().find(|(_, from, to)| (*from..=*to).contains(&(reach as i64 - end as i64)));
        if let Some((name, ..)) = near {
            *self.ends.entry((name, case.kind)).or_insert(0) += 1;
        }
    }

    /// How many sections of the kind have their pane's reach there (a name of `ENDS`).
    pub fn ends(&self, name: &'static str, kind: u64) -> u64 {
        self.ends.get(&(name, kind)).copied().unwrap_or(0)
    }

    /// How many reaches nnbfl judged of a call's reads of the kind.
    pub fn reaches(&self, call: &'static str, kind: u64) -> u64 {
        self.reaches.get(&(call, kind)).copied().unwrap_or(0)
    }

    /// Counts a difference and tells the first ones.
    pub fn differs(&mut self, case: Case, expected: &Outcome, found: &Outcome, what: &[String], input: &str) {
        self.differences += 1;
        if !self.quiet && self.differences <= 10 {
            let kind = KINDS[case.kind as usize];
            println!("DIFFERENCE in case {} ({}, {}, {kind})", self.cases + 1, case.generator, case.call);
            println!("  expected {expected:?}, found {found:?}");
            for line in what.iter().take(8) {
                println!("  {line}");
            }
            println!("  {input}");
        }
    }

    fn sums<K: Ord>(&self, key: impl Fn(&Case, u64, u64) -> K) -> BTreeMap<K, u64> {
        let mut sums = BTreeMap::new();
        for ((case, code, number), count) in &self.counts {
            *sums.entry(key(case, *code, *number)).or_insert(0) += count;
        }
        sums
    }

    // How many cases nnbfl itself decided: what was read or written, where bytes ran out or no NUL was met in a body, and where an output ends.
    fn judged(&self) -> u64 {
        let by_nnbfl = |code: u64, number: u64| matches!((code, number), (PANE | WRITTEN, _) | (REFUSED, 4 | 5 | 16));
        self.counts.iter().filter(|((_, code, number), _)| by_nnbfl(*code, *number)).map(|(_, count)| count).sum()
    }

    /// Prints the counts.
    pub fn report(&self) {
        println!("\ncases by generator");
        for (generator, count) in self.sums(|c, _, _| c.generator) {
            println!("  {generator:34} {count:9}");
        }
        self.report_unmirrored();
        println!("\ncases by call, outcome and kind");
        print_kinds();
        let rows = self.sums(|c, code, number| (c.call, code, number));
        let cells = self.sums(|c, code, number| (c.call, code, number, c.kind));
        for (call, code, number) in rows.into_keys() {
            print_row(call, &outcome_name(code, number), |kind| cells.get(&(call, code, number, kind)).copied());
        }
        self.report_reaches();
        self.report_ends();
        println!("\n{} cases by nnbfl's own answer, the others by document 01's table and Note 4 of document 02", self.judged());
        println!("{} claims about several calls, as that a record came back as it was written or a strip ended where it must", self.claims);
        println!("{} cases in {:.0} s, {} differences", self.cases, self.seconds(), self.differences);
    }

    fn report_reaches(&self) {
        let judged: u64 = self.reaches.values().sum();
        println!("\nof these, those whose reach nnbfl judged, by the shortest buffer in which it reads the body: {judged}");
        print_kinds();
        for call in ["read body", "read section", "refused by 19"] {
            print_row(call, "", |kind| self.reaches.get(&(call, kind)).copied());
        }
    }

    fn report_ends(&self) {
        println!("\nof these, sections whose pane looks about as far as the section's end (those past it are refused by 19)");
        print_kinds();
        for (name, ..) in ENDS {
            print_row(name, "", |kind| self.ends.get(&(name, kind)).copied());
        }
    }

    fn report_unmirrored(&self) {
        if self.unmirrored.is_empty() {
            return;
        }
        println!("\nwithout a mirror, by generator, and not among the cases: {}", self.unmirrored.values().sum::<u64>());
        for (generator, count) in &self.unmirrored {
            println!("  {generator:34} {count:9}");
        }
    }
}
