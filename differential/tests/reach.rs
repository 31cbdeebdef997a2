//! How far a read looks: by the comparison's own account, by nnbfl, and by the library in both byte orders.
use bidlomeqa::layout::*;
use differential::compare::Comparison;
use differential::fault::Fault;
use differential::generate::bodies;
use differential::oracle::cursor;
use differential::panes::AnyPane;
use differential::random::Random;
use differential::reach::{looked, shortest, Looked};
use differential::whole::*;

// Runs of bytes, so many zeros after each.
fn spelled(runs: &[(&[u8], usize)]) -> Vec<u8> {
    runs.iter().flat_map(|(bytes, zeros)| [bytes, &vec![0; *zeros][..]].concat()).collect()
}

// A section at 0: its end, the next place and its reach, and the place that is sought with nothing to read there.
fn section(kind: u64, data: &[u8], places: [u64; 3], sought: usize) {
    let reach = places[2] as usize;
    assert_eq!(looked(kind, data, 8), Looked { reach, sought });
    assert_eq!(shortest(kind, data, 8), reach.max(sought));
    for order in [LITTLE, BIG] {
        let mut c = Comparison::new(order, true, Fault::none());
        assert_eq!(c.section(data, 0), (PANE, places));
        assert_eq!(c.body(kind, data, 8), (PANE, [places[0], 0, places[2]]));
        assert_eq!((c.tally.of("read section", PANE, 0), c.tally.of("read body", PANE, 0), c.tally.differences), (1, 1, 0));
    }
}

#[test]
fn the_examples_of_note_01() {
    section(ALI1, &spelled(&[(b"ali1\x60", 91)]), [96, 96, 96], 0);
    section(TXT1, &spelled(&[(b"txt1\xB0", 81), (b"\x01", 13), (b"\xB0", 75)]), [168, 176, 168], 176);
    section(TXT1, &spelled(&[(b"txt1\xB0", 123), (b"\xAD", 39), (b"AAAAA\0AA", 0)]), [168, 176, 174], 0);
    section(WND1, &spelled(&[(b"wnd1\x8C", 99), (b"\x70\0\0\0\x8C", 31)]), [112, 140, 132], 140);
}

#[test]
fn parts_of_a_text_box() {
    // An ill-formed text of five bytes, whose last odd one is not read; a label of two bytes; a line table of no lines, and of one.
    section(TXT1, &spelled(&[(b"txt1\xB0", 81), (b"\x05", 13), (b"\xA8", 67), (b"\xD8\xD8\xD8\xD8", 4)]), [168, 176, 172], 0);
    section(TXT1, &spelled(&[(b"txt1\xB0", 123), (b"\xA8", 39), (b"ab", 6)]), [168, 176, 171], 0);
    section(TXT1, &spelled(&[(b"txt1\xB0", 89), (b"\x40", 65), (b"\xAA", 15)]), [168, 176, 171], 0);
    section(TXT1, &spelled(&[(b"txt1\xB4", 89), (b"\x40", 65), (b"\xA9", 8), (b"\x01", 10)]), [168, 180, 178], 0);
    // Flag bits 4 and 6 clear: neither the line table nor the per-character offset is followed.
    section(TXT1, &spelled(&[(b"txt1\xB0", 155), (b"\xAA", 3), (b"\xAB", 11)]), [168, 176, 168], 0);
}

#[test]
fn parts_of_a_window_and_of_a_picture() {
    // One frame: it lies last, with its reserved byte; the table lies last; the content lies last.
    let window = |content: u8, table: u8, rest: &[u8]| {
        let head = spelled(&[(b"wnd1\x90", 95), (b"\x01", 3), (&[content], 3), (&[table], 3)]);
        section(WND1, &[&head, rest].concat(), [112, 144, 140], 0);
    };
    window(116, 112, &spelled(&[(b"\x88", 31)]));
    window(116, 136, &spelled(&[(b"", 24), (b"\x70", 7)]));
    window(120, 116, &spelled(&[(b"", 4), (b"\x70", 27)]));
    // One quad and a shape index, then padding.
    section(PIC1, &spelled(&[(b"pic1\x90", 97), (b"\x01\x02", 40)]), [140, 144, 140], 0);
    section(PAN1, &spelled(&[(b"pan1\x58", 83)]), [84, 88, 84], 0);
}

#[test]
fn halving_finds_what_counting_finds() {
    for kind in 0..5 {
        let data = [bodies::template(&mut Random(1), kind, 8), vec![0x41; 7]].concat();
        let reads = |n: &usize| AnyPane::parse(kind, &mut cursor(&data[..*n], 8)).is_ok();
        let least = (8..=data.len()).find(reads).unwrap();
        assert!((least..=data.len()).all(|n| reads(&n)));
        assert_eq!(shortest(kind, &data, 8), least);
        assert_eq!(looked(kind, &data, 8), Looked { reach: least, sought: 0 });
    }
}

#[test]
fn nnbfl_judges_bodies_and_sections_of_every_kind() {
    for (order, kind) in [LITTLE, BIG].into_iter().flat_map(|order| (0..5).map(move |kind| (order, kind))) {
        let data = bodies::section(kind, bodies::template(&mut Random(1), kind, 8));
        let mut c = Comparison::new(order, true, Fault::none());
        // One pane in 61 is judged.
        for _ in 0..61 {
            c.body(kind, &data, 8);
        }
        for _ in 0..61 {
            c.section(&data, 0);
        }
        assert_eq!((c.tally.reaches("read body", kind), c.tally.reaches("read section", kind), c.tally.differences), (1, 1, 0));
    }
}

#[test]
fn a_wrong_reach_is_reported() {
    let data = bodies::section(TXT1, bodies::template(&mut Random(1), TXT1, 8));
    for order in [LITTLE, BIG] {
        for name in ["changed-reach", "reach-for-next", "reach-is-end"] {
            let mut c = Comparison::new(order, true, Fault::named(order, name, 1).unwrap());
            c.body(TXT1, &data, 8);
            c.section(&data, 0);
            assert_eq!((c.fault.made, c.tally.differences), (2, 2));
        }
    }
}
