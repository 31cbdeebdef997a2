//! One call of the library held against what must be answered.
//!
//! Bytes are handed in as nnbfl has them, little-endian. A big-endian run gives the library their mirror, and must get the same answers and records and,
//! where it writes, the mirror of what nnbfl writes.
use crate::fault::{Fault, Left};
use crate::lent::{different, Lent, GUARD, WORD};
use crate::mirror;
use crate::oracle::{self, Outcome, LIMIT};
use crate::reach;
use crate::tally::{Case, Tally};
use crate::whole::*;
use bidlomeqa::calls::{self, ReadLists};
use bidlomeqa::layout::*;
use bidlomeqa::{Buffer, ByteOrder, Kind};
use std::borrow::Cow;

const BYTE: u8 = 0xA5;

/// Of one pane in so many nnbfl judges the reach, and of one in so many that are refused by 19. A prime, so that no generator keeps in step with it.
const JUDGED: u64 = 61;

fn hex(bytes: &[u8]) -> String {
    let digits: String = bytes.iter().take(400).map(|b| format!("{b:02X}")).collect();
    format!("{} bytes {digits}{}", bytes.len(), if bytes.len() > 400 { ".." } else { "" })
}

/// How long the lists are that a read lends.
pub type Lengths = [usize; 4];

/// Sections in a row: as nnbfl has them, and their mirror in a big-endian run.
pub struct Strip {
    little: Vec<u8>,
    big: Option<Vec<u8>>,
}

impl Strip {
    fn given(&self) -> &[u8] {
        self.big.as_ref().unwrap_or(&self.little)
    }
}

/// The comparison: the two sides' lists, outputs and counts.
pub struct Comparison {
    /// The byte order of every call.
    pub order: u64,
    pub tally: Tally,
    pub fault: Fault,
    pub generator: &'static str,
    expected: Lent,
    found: Lent,
    whole: Whole,
    /// How many panes were read, and how many sections were refused by 19.
    panes: u64,
    refused_by_19: u64,
    buffer: Buffer,
    out: Vec<u8>,
    /// What nnbfl's writes make of the output, and its mirror in a big-endian run.
    model: Vec<u8>,
    big: Vec<u8>,
    before: Vec<u8>,
    scratch: Vec<u8>,
}

impl Comparison {
    pub fn new(order: u64, quiet: bool, fault: Fault) -> Self {
        Self {
            order,
            tally: Tally::new(quiet),
            fault,
            generator: "",
            expected: Lent::new(),
            found: Lent::new(),
            whole: Whole::default(),
            panes: 0,
            refused_by_19: 0,
            buffer: Buffer::new(),
            out: Vec::new(),
            model: Vec::new(),
            big: Vec::new(),
            before: Vec::new(),
            scratch: Vec::new(),
        }
    }

    /// A body read with full lists.
    pub fn body(&mut self, kind: u64, data: &[u8], place: usize) -> Outcome {
        self.body_with(kind, data, place, FULL)
    }

    /// A body read with lists of these lengths.
    pub fn body_with(&mut self, kind: u64, data: &[u8], place: usize, lengths: Lengths) -> Outcome {
        let expected = oracle::read_body(kind, data, place, lengths, &mut self.whole);
        let Some(given) = self.given(data, || mirror::body(kind, data, place)) else { return expected };
        let order = self.order;
        let call = |lists: &mut ReadLists, words: &mut [u64], answer: &mut [u64]| calls::read_body(order, kind, &given, place, lists, words, answer);
        let case = Case { generator: self.generator, call: "read body", kind };
        self.read(case, expected, lengths, None, call, || format!("kind {kind}, place {place}, {}", hex(&given)));
        if expected.0 == PANE {
            self.pane(case, data, &given, place, &expected);
        }
        if expected.0 == PANE && self.tally.cases % 16 == 0 {
            self.typed(case, &given, place, &expected);
        }
        expected
    }

    /// A section read with full lists; what a pane holds stays in `last`.
    pub fn section(&mut self, data: &[u8], place: usize) -> Outcome {
        self.section_with(data, place, FULL)
    }

    /// A section read with lists of these lengths.
    pub fn section_with(&mut self, data: &[u8], place: usize, lengths: Lengths) -> Outcome {
        match self.given(data, || mirror::section(data, place)) {
            Some(given) => self.section_given(data, &given, place, lengths),
            None => oracle::read_section(data, place, lengths, &mut self.whole),
        }
    }

    /// A section of a strip, read with full lists.
    pub fn section_of(&mut self, strip: &Strip, place: usize) -> Outcome {
        self.section_given(&strip.little, strip.given(), place, FULL)
    }

    fn section_given(&mut self, data: &[u8], given: &[u8], place: usize, lengths: Lengths) -> Outcome {
        let expected = oracle::read_section(data, place, lengths, &mut self.whole);
        let order = self.order;
        let call = |lists: &mut ReadLists, words: &mut [u64], answer: &mut [u64]| calls::read_section(order, given, place, lists, words, answer);
        let kind = data.get(place..).and_then(|s| LETTERS.iter().position(|l| s.starts_with(&l[..]))).unwrap_or(5) as u64;
        let case = Case { generator: self.generator, call: "read section", kind };
        let past = if self.fault.is_some() { oracle::past(data, place) } else { None };
        self.read(case, expected, lengths, past, call, || format!("place {place}, {}", hex(given)));
        match expected {
            (PANE, [_, end, reach]) => {
                self.tally.at_end(case, reach, end);
                self.pane(case, data, given, place + 8, &expected);
            }
            (REFUSED, [19, reach, end]) => {
                self.tally.at_end(case, reach, end);
                self.past(case, data, place + 8, &expected);
            }
            _ => {}
        }
        expected
    }

    // What else is tried of a section whose pane reads past its end: a body read takes it, and nnbfl judges its reach.
    fn past(&mut self, case: Case, data: &[u8], body: usize, expected: &Outcome) {
        let (code, [_, _, reach]) = self.body(case.kind, data, body);
        self.claim("body takes it", case.kind, (code, reach) == (PANE, expected.1[1]), || hex(data));
        self.refused_by_19 += 1;
        if self.refused_by_19 % JUDGED == 0 {
            self.judge(Case { call: "refused by 19", ..case }, data, body, expected, reach as usize);
        }
    }

    // The bytes in the order of the run; none, and counted, where they have no mirror.
    fn given<'a>(&mut self, data: &'a [u8], mirrored: impl Fn() -> Option<Vec<u8>>) -> Option<Cow<'a, [u8]>> {
        if self.order == LITTLE {
            return Some(Cow::Borrowed(data));
        }
        let big = mirrored().map(Cow::Owned);
        if big.is_none() {
            self.tally.without_mirror(self.generator);
        }
        big
    }

    /// The sections in the order of the run; none, and counted, where they have no mirror.
    pub fn strip(&mut self, little: Vec<u8>) -> Option<Strip> {
        let given = self.given(&little, || mirror::strip(&little))?;
        let big = if let Cow::Owned(big) = given { Some(big) } else { None };
        Some(Strip { little, big })
    }

    /// The sections that were written up to the end, which must be each other's mirror as a whole too.
    pub fn written(&mut self, end: usize) -> Strip {
        let little = self.model(end);
        if self.order == LITTLE {
            return Strip { little, big: None };
        }
        let big = Some(self.big[..end].to_vec());
        let mirrored = mirror::strip(&little) == big;
        self.claim("mirrored", 5, mirrored, || hex(&little));
        Strip { little, big }
    }

    /// The pane that the last read with the answer PANE gave.
    pub fn last(&self) -> &Whole {
        &self.whole
    }

    fn read(
        &mut self,
        case: Case,
        expected: Outcome,
        lengths: Lengths,
        past: Option<Outcome>,
        call: impl Fn(&mut ReadLists, &mut [u64], &mut [u64]) -> u64,
        input: impl Fn() -> String,
    ) {
        if expected.0 == PANE {
            self.expected.holds(&self.whole);
        }
        let Lent { words, quads, units, lines, frames } = &mut self.found;
        let mut lists = ReadLists {
            quads: &mut quads[..lengths[0]],
            units: &mut units[..lengths[1]],
            lines: &mut lines[..lengths[2]],
            frames: &mut frames[..lengths[3]],
        };
        let mut answer = [WORD; ANSWER_WORDS];
        let mut code = call(&mut lists, words, &mut answer);
        self.fault.apply(Left { words, quads, units, lines, frames, past, ..Left::answer(&mut code, &mut answer) });
        if (code, answer) != expected || self.found != self.expected {
            let what = self.expected.differences(&self.found);
            self.tally.differs(case, &expected, &(code, answer), &what, &input());
            (self.expected, self.found) = (Lent::new(), Lent::new());
        } else if expected.0 == PANE {
            self.expected.blank(&self.whole);
            self.found.blank(&self.whole);
        }
        self.tally.count(case, &expected);
    }

    // What else is tried of the pane that was read last.
    fn pane(&mut self, case: Case, data: &[u8], given: &[u8], body: usize, expected: &Outcome) {
        if self.order == BIG {
            self.labelled(given);
        }
        self.panes += 1;
        if self.panes % JUDGED == 0 {
            self.judge(case, data, body, expected, expected.1[2] as usize);
        }
    }

    // The reach by nnbfl itself: it reads the body in a buffer that goes to the reach and to every place that is sought, and in no shorter one.
    fn judge(&mut self, case: Case, data: &[u8], body: usize, expected: &Outcome, reach: usize) {
        let needed = reach::looked(case.kind, data, body).sought.max(reach);
        let shortest = reach::shortest(case.kind, data, body);
        if shortest != needed {
            let what = format!("nnbfl reads the body in the first {shortest} bytes and in no fewer, where {needed} are needed");
            self.tally.differs(case, expected, expected, &[what], &hex(data));
        }
        self.tally.judged_reach(case);
    }

    // Label and caption of the pane that was read last, in the bytes that it was read from.
    fn labelled(&mut self, given: &[u8]) {
        if self.whole.kind() == TXT1 {
            let words = self.whole.words;
            self.parts(given, &words, b"lent caption");
            let (from, count) = (words[LABEL_PLACE] as usize, words[LABEL_LENGTH] as usize);
            let stands = given[from..from + count] == self.whole.label;
            self.claim("label stands", TXT1, stands, || hex(given));
        }
    }

    // The typed record of the crate, read and written back, against nnbfl's bytes in the order of the run.
    fn typed(&mut self, case: Case, given: &[u8], place: usize, read: &Outcome) {
        let order = if self.order == BIG { ByteOrder::Big } else { ByteOrder::Little };
        let (record, places) = match self.buffer.read_body(order, Kind::CASES[case.kind as usize], given, place) {
            Ok(body) => (body.view.record(), [body.end as u64, 0, body.reach as u64]),
            Err(refusal) => panic!("a typed read was refused: {refusal}"),
        };
        self.claim("typed places", case.kind, places == read.1, || format!("{places:?}: {}", hex(given)));
        self.scratch = oracle::written(&self.whole, false, place, std::mem::take(&mut self.scratch));
        let mut model = if self.order == BIG { self.mirrored(case.kind, false, place) } else { self.scratch.clone() };
        let end = model.len();
        let mut out = vec![0; end];
        let mut expected = (WRITTEN, [end as u64, 0, 0]);
        // nnbfl's output grows without bound; one that is longer than document 01 lets through is refused by 1 and stays as it was.
        if end > LIMIT {
            expected = oracle::refused(1, end, 0);
            model.fill(0);
        }
        let answer = self.buffer.write_body(order, &record, &mut out, place);
        let case = Case { call: "typed body", ..case };
        let found = answer.map_or_else(|no| (REFUSED, no.figures().into()), |end| (WRITTEN, [end as u64, 0, 0]));
        if found != expected || out[place..] != model[place..] {
            let mut what = Vec::new();
            different("byte", &model[place..], &out[place..], &mut what);
            self.tally.differs(case, &expected, &found, &what, &hex(given));
        }
        self.tally.count(case, &expected);
    }

    /// A body or a section written into an output of its own.
    pub fn write(&mut self, w: &Whole, section: bool, place: usize, length: usize) -> Outcome {
        self.fresh(length);
        self.write_over(w, section, place, length)
    }

    /// A new output for a list of section writes.
    pub fn fresh(&mut self, length: usize) {
        self.out.clear();
        self.out.resize(length + GUARD, BYTE);
        self.model.clear();
        self.model.resize(length + GUARD, BYTE);
        if self.order == BIG {
            self.big.clone_from(&self.model);
        }
    }

    /// What nnbfl's writes made of the output.
    pub fn model(&self, end: usize) -> Vec<u8> {
        self.model[..end].to_vec()
    }

    /// A body or a section written over what the output holds.
    pub fn write_over(&mut self, w: &Whole, section: bool, place: usize, length: usize) -> Outcome {
        let expected = oracle::write(w, section, place, &mut self.model[..length], &mut self.scratch);
        if expected.0 == WRITTEN && self.order == BIG {
            self.mirror_written(w.kind(), section, place);
        }
        self.before.clear();
        self.before.extend_from_slice(&self.out);
        let mut answer = [WORD; ANSWER_WORDS];
        let out = &mut self.out[..length];
        let write = if section { calls::write_section } else { calls::write_body };
        let mut code = write(self.order, &w.words, w.lists(), out, place, &mut answer);
        let (kind, body) = (w.kind(), if section { place.wrapping_add(8) } else { place });
        self.fault.apply(Left { out: &mut self.out, before: &self.before, kind, section, body, ..Left::answer(&mut code, &mut answer) });
        let case = Case { generator: self.generator, call: if section { "write section" } else { "write body" }, kind };
        let model = if self.order == BIG { &self.big } else { &self.model };
        if (code, answer) != expected || self.out != *model {
            let mut what = Vec::new();
            different("byte", model, &self.out, &mut what);
            let input = format!("place {place}, output {length}, {w:?}");
            self.tally.differs(case, &expected, &(code, answer), &what, &input);
            self.out.clone_from(model);
        }
        self.tally.count(case, &expected);
        expected
    }

    // What nnbfl wrote last, from `place` on, mirrored into the big-endian output.
    fn mirror_written(&mut self, kind: u64, section: bool, place: usize) {
        let big = self.mirrored(kind, section, place);
        self.big[place..big.len()].copy_from_slice(&big[place..]);
    }

    // The mirror of what nnbfl wrote last.
    fn mirrored(&self, kind: u64, section: bool, place: usize) -> Vec<u8> {
        let big = if section { mirror::section(&self.scratch, place) } else { mirror::body(kind, &self.scratch, place) };
        big.expect("no two parts that nnbfl writes share a byte")
    }

    /// Label and caption of a record in a strip.
    pub fn parts(&mut self, strip: &[u8], words: &[u64], lent: &[u8]) {
        let mut answer = [WORD; ANSWER_WORDS];
        let code = calls::label(strip, words, &mut answer);
        self.part("label", oracle::label(strip, words), code, answer, words[KIND]);
        let mut answer = [WORD; ANSWER_WORDS];
        let code = calls::caption(strip, words, lent, &mut answer);
        self.part("caption", oracle::caption(strip, words, lent), code, answer, words[KIND]);
    }

    fn part(&mut self, call: &'static str, expected: Outcome, mut code: u64, mut answer: [u64; ANSWER_WORDS], kind: u64) {
        self.fault.apply(Left::answer(&mut code, &mut answer));
        let case = Case { generator: self.generator, call, kind };
        if (code, answer) != expected {
            self.tally.differs(case, &expected, &(code, answer), &[], "");
        }
        self.tally.count(case, &expected);
    }

    /// A claim about several calls, as that a record comes back as it was written.
    pub fn claim(&mut self, call: &'static str, kind: u64, holds: bool, what: impl Fn() -> String) {
        self.tally.claims += 1;
        if !holds {
            let case = Case { generator: self.generator, call, kind };
            let none = (PANE, [0; 3]);
            self.tally.differs(case, &none, &none, &[what()], "");
        }
    }
}
