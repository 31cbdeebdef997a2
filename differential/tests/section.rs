//! A pane keeps to its section: what is expected of sections written out by hand, of the library in both byte orders, and of faults.
use bidlomeqa::layout::*;
use differential::compare::Comparison;
use differential::fault::Fault;
use differential::generate::bodies;
use differential::mirror;
use differential::oracle;
use differential::random::Random;
use differential::tally::ENDS;
use differential::whole::*;

const NINETEEN: u64 = 19;

// Runs of bytes, so many zeros after each.
fn spelled(runs: &[(&[u8], usize)]) -> Vec<u8> {
    runs.iter().flat_map(|(bytes, zeros)| [bytes, &vec![0; *zeros][..]].concat()).collect()
}

// A section at 0 and the same at 12 with others before it. What is expected, by the comparison's own reading, and that the library answers it in both orders. The figures of 19
// are places, so they move with the section.
fn section(data: &[u8], expected: (u64, [u64; 3])) {
    for order in [LITTLE, BIG] {
        for place in [0, 12] {
            let mut at = spelled(&[(b"usd1\x0C", place)]);
            at.resize(place, 0);
            at.extend(data);
            let moved = match expected {
                (PANE, places) => (PANE, places.map(|p| p + place as u64)),
                (_, [number @ (4 | 5 | 7 | 8), a, b]) => (REFUSED, [number, a + place as u64, b]),
                (_, [NINETEEN, a, b]) => (REFUSED, [NINETEEN, a + place as u64, b + place as u64]),
                other => other,
            };
            let mut c = Comparison::new(order, true, Fault::none());
            assert_eq!((c.section(&at, place), c.tally.differences), (moved, 0), "order {order}, place {place}");
            let (reads, bodies) =
                (c.tally.of("read section", moved.0, if moved.0 == REFUSED { moved.1[0] } else { 0 }), c.tally.of("read body", PANE, 0));
            assert_eq!((reads, bodies), (1, u64::from(moved.1[0] == NINETEEN && moved.0 == REFUSED)));
        }
    }
}

fn pane(data: &[u8], places: [u64; 3]) {
    section(data, (PANE, places));
}

fn no(data: &[u8], number: u64, a: u64, b: u64) {
    section(data, (REFUSED, [number, a, b]));
}

#[test]
fn the_examples_of_note_04() {
    no(&spelled(&[(b"ali1\x08", 91)]), 19, 96, 8);
    pane(&spelled(&[(b"ali1\x60", 91)]), [96, 96, 96]);
    no(&spelled(&[(b"txt1\xA8", 123), (b"\xA8", 39), (b"\xFF\0\0\0", 0)]), 7, 168, 3);
    pane(&spelled(&[(b"txt1\xA8", 95), (b"\xAC", 71)]), [168, 168, 168]);
}

#[test]
fn sizes_that_just_hold_and_just_do_not() {
    for (letters, length) in [(b"pan1", 84), (b"pic1", 104), (b"txt1", 168), (b"ali1", 96)] {
        pane(&spelled(&[(letters, 0), (&[length], length as usize)]), [length.into(), length.into(), length.into()]);
        no(&spelled(&[(letters, 0), (&[length - 4], length as usize)]), 19, length.into(), (length - 4).into());
    }
    // A window whose content lies in its fixed bytes.
    pane(&spelled(&[(b"wnd1\x70", 99), (b"\x08", 7)]), [112, 112, 112]);
    no(&spelled(&[(b"wnd1\x6C", 99), (b"\x08", 7)]), 19, 112, 108);
}

#[test]
fn parts_of_a_text_box() {
    // A label whose NUL is the last byte of the section, and the first behind it.
    pane(&spelled(&[(b"txt1\xAC", 123), (b"\xA8", 39), (b"abc\0", 4)]), [168, 172, 172]);
    no(&spelled(&[(b"txt1\xAC", 123), (b"\xA8", 39), (b"abcd", 4)]), 19, 173, 172);
    // A text of five bytes, of which four are read: in the section, and half behind it; ill-formed too.
    pane(&spelled(&[(b"txt1\xAC", 81), (b"\x05", 13), (b"\xA8", 67), (b"A\0B\0", 4)]), [168, 172, 172]);
    no(&spelled(&[(b"txt1\xA8", 81), (b"\x04", 13), (b"\xA6", 67), (b"A\0B\0", 4)]), 19, 170, 168);
    no(&spelled(&[(b"txt1\xA8", 81), (b"\x05", 13), (b"\xA8", 67), (b"\xD8\xD8\xD8\xD8", 4)]), 19, 172, 168);
    // A line table of one line.
    pane(&spelled(&[(b"txt1\xB4", 89), (b"\x40", 65), (b"\xAB", 10), (b"\x01", 8)]), [168, 180, 180]);
    no(&spelled(&[(b"txt1\xB0", 89), (b"\x40", 65), (b"\xAB", 10), (b"\x01", 8)]), 19, 180, 176);
    // The table's flag is clear: its offset is not followed.
    pane(&spelled(&[(b"txt1\xA8", 155), (b"\xAA", 19)]), [168, 168, 168]);
}

#[test]
fn parts_of_a_window_and_of_a_picture() {
    // The content; the table with a frame in the fixed bytes; a frame.
    let window = |size: u8, content: u8, table: u8, rest: &[u8]| {
        let head = spelled(&[(&[b"wnd1", &[size][..]].concat(), 95), (b"\x01", 3), (&[content], 3), (&[table], 3)]);
        [&head, rest].concat()
    };
    for (content, table, rest) in
        [(116, 112, spelled(&[(b"\x08", 31)])), (8, 132, spelled(&[(b"", 20), (b"\x08", 11)])), (8, 112, spelled(&[(b"\x84", 31)]))]
    {
        pane(&window(136, content, table, &rest), [112, 136, 136]);
        no(&window(132, content, table, &rest), 19, 136, 132);
    }
    // A table with no frames may lie behind the section.
    pane(&spelled(&[(b"wnd1\x70", 99), (b"\x08\0\0\0\x74", 7)]), [112, 112, 112]);
    // A quad and a shape index.
    pane(&spelled(&[(b"pic1\x8C", 97), (b"\x01\x02", 36)]), [140, 140, 140]);
    no(&spelled(&[(b"pic1\x88", 97), (b"\x01\x02", 36)]), 19, 140, 136);
    no(&spelled(&[(b"pic1\x68", 97), (b"\x01\x02", 36)]), 19, 140, 104);
}

#[test]
fn what_comes_before_19() {
    no(&spelled(&[(b"ali1\x08", 6), (b"\0\xFF", 83)]), 7, 12, 1);
    no(&spelled(&[(b"ali1\x08", 31), (b"\xFF", 59)]), 7, 36, 2);
    no(&spelled(&[(b"txt1\x08", 123), (b"\xA8", 39), (b"abcd", 0)]), 5, 168, 0);
    no(&spelled(&[(b"pic1\x08", 97), (b"\x01", 32)]), 4, 132, 4);
    no(&spelled(&[(b"ali1\x0A", 91)]), 8, 4, 10);
    section(&spelled(&[(b"txt1\x08", 89), (b"\x10", 69), (b"\x09", 3)]), (REFUSED, [6, 9, 0]));
}

#[test]
fn sections_after_one_that_is_refused_keep_their_bytes_in_the_mirror() {
    // An alignment pane of size 8. Its first bytes would be a header too, with a size where the name stands, and a size is turned where a name is not.
    let little = spelled(&[(b"ali1\x08", 3), (b"usd1\x08", 71), (b"\x01\x02\x03\x04", 8)]);
    let mut big = little.clone();
    big[4..8].reverse();
    big[84..88].reverse();
    assert_eq!(mirror::section(&little, 0), Some(big.clone()));
    assert_eq!(mirror::strip(&little), Some(big));
}

#[test]
fn what_19_would_tell_before_7() {
    let ill_formed = spelled(&[(b"txt1\xA8", 123), (b"\xA8", 39), (b"\xFF\0\0\0", 0)]);
    assert_eq!(oracle::past(&ill_formed, 0), Some((REFUSED, [NINETEEN, 170, 168])));
    assert_eq!(oracle::past(&spelled(&[(b"ali1\x60", 91)]), 0), None);
    assert_eq!(oracle::past(&spelled(&[(b"usd1\x08", 91)]), 0), None);
    assert_eq!(oracle::past(b"ali1\x08\0\0\0", 0), None);
}

// Sections of every size of a kind's template, some with an ill-formed name.
fn sections(c: &mut Comparison, kind: u64) {
    let template = [bodies::template(&mut Random(1), kind, 8), vec![0; 12]].concat();
    for name in [b'P', 0xFF] {
        for size in (8..=template.len()).step_by(4) {
            let mut data = template.clone();
            data[..4].copy_from_slice(LETTERS[kind as usize]);
            data[4..8].copy_from_slice(&(size as u32).to_le_bytes());
            data[12] = name;
            c.section(&data, 0);
        }
    }
}

#[test]
fn what_is_just_kept_and_what_is_just_past_are_counted() {
    for (order, kind) in [LITTLE, BIG].into_iter().flat_map(|order| (0..5).map(move |kind| (order, kind))) {
        let mut c = Comparison::new(order, true, Fault::none());
        sections(&mut c, kind);
        let near: u64 = ENDS.iter().map(|(name, ..)| c.tally.ends(name, kind)).sum();
        assert!(near == 2 && c.tally.ends("1 to 4 past", kind) == 1);
        let refused = c.tally.of("read section", REFUSED, NINETEEN);
        assert!(refused > 15 && c.tally.of("read body", PANE, 0) == refused && c.tally.differences == 0);
    }
}

#[test]
fn nnbfl_judges_sections_that_are_refused() {
    let data = spelled(&[(b"txt1\xA8", 123), (b"\xA8", 39), (b"ab\0", 9)]);
    for order in [LITTLE, BIG] {
        let mut c = Comparison::new(order, true, Fault::none());
        // One in 61 is judged.
        for _ in 0..122 {
            c.section(&data, 0);
        }
        assert_eq!((c.tally.reaches("refused by 19", TXT1), c.tally.differences), (2, 0));
    }
}

#[test]
fn faults_are_reported() {
    let names = [
        "19-where-it-just-keeps",
        "19-with-its-figures-exchanged",
        "19-before-7",
        "19-not-made",
        "19-of-a-body",
        "filled-before-19",
        "quads-filled-before-19",
        "record-before-19",
    ];
    for (order, name) in [LITTLE, BIG].into_iter().flat_map(|order| names.map(move |name| (order, name))) {
        let mut made = 0;
        for kind in 0..5 {
            let mut c = Comparison::new(order, true, Fault::named(order, name, 1).unwrap());
            sections(&mut c, kind);
            assert_eq!(c.tally.differences, c.fault.made, "{name} of kind {kind} in order {order}");
            made += c.fault.made;
        }
        assert!(made > 0, "{name} was not made");
    }
}
