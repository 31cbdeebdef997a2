//! Bytes written out by hand, against the mirror and against the library.
use bidlomeqa::calls::{self, ReadLists};
use bidlomeqa::layout::*;
use differential::mirror;
use differential::whole::*;

// The four letters and the four bytes of the size, then zeros.
fn section(letters: &[u8; 4], size: [u8; 4], zeros: usize) -> Vec<u8> {
    [&letters[..], &size, &vec![0; zeros]].concat()
}

// A text box with a text of four bytes at offset 168 and nothing else.
fn text_box(size: [u8; 4], text_length: [u8; 2], offset: [u8; 4], text: [u8; 4]) -> Vec<u8> {
    let mut data = section(b"txt1", size, 164);
    data[8 + 78..8 + 80].copy_from_slice(&text_length);
    data[8 + 92..8 + 96].copy_from_slice(&offset);
    data[168..].copy_from_slice(&text);
    data
}

fn little_text() -> Vec<u8> {
    text_box([172, 0, 0, 0], [4, 0], [168, 0, 0, 0], [0x3D, 0xD8, 0x00, 0xDE])
}

fn big_text() -> Vec<u8> {
    text_box([0, 0, 0, 172], [0, 4], [0, 0, 0, 168], [0xD8, 0x3D, 0xDE, 0x00])
}

struct Read {
    outcome: (u64, [u64; ANSWER_WORDS]),
    words: [u64; RECORD_WORDS],
    units: Vec<u16>,
}

fn read(order: u64, data: &[u8]) -> Read {
    let [mut quads, mut lines] = [FULL[0], FULL[2]].map(|n| vec![0; n]);
    let [mut units, mut frames] = [FULL[1], FULL[3]].map(|n| vec![0; n]);
    let mut lists = ReadLists { quads: &mut quads, units: &mut units, lines: &mut lines, frames: &mut frames };
    let (mut words, mut answer) = ([0; RECORD_WORDS], [0; ANSWER_WORDS]);
    let code = calls::read_section(order, data, 0, &mut lists, &mut words, &mut answer);
    Read { outcome: (code, answer), words, units }
}

#[test]
fn a_size_is_turned_and_letters_are_not() {
    let (little, big) = (section(b"ali1", [96, 0, 0, 0], 88), section(b"ali1", [0, 0, 0, 96], 88));
    assert_eq!(mirror::section(&little, 0), Some(big.clone()));
    assert_eq!(mirror::strip(&little), Some(big.clone()));
    assert_eq!(read(LITTLE, &little).outcome, (PANE, [96, 96, 96]));
    assert_eq!(read(BIG, &big).outcome, (PANE, [96, 96, 96]));
    assert_eq!(read(LITTLE, &big).outcome, (REFUSED, [8, 4, 0x6000_0000]));
}

#[test]
fn a_section_of_eight_bytes() {
    let little = section(b"ali1", [8, 0, 0, 0], 0);
    assert_eq!(read(LITTLE, &little).outcome, (REFUSED, [4, 8, 1]));
    assert_eq!(read(BIG, &little).outcome, (REFUSED, [8, 4, 0x0800_0000]));
    assert_eq!(read(BIG, &mirror::section(&little, 0).unwrap()).outcome, (REFUSED, [4, 8, 1]));
}

#[test]
fn text_units_are_turned() {
    assert_eq!(mirror::section(&little_text(), 0), Some(big_text()));
    for (order, data) in [(LITTLE, little_text()), (BIG, big_text())] {
        let read = read(order, &data);
        assert_eq!(read.outcome, (PANE, [168, 172, 172]));
        assert_eq!((read.words[TEXT_PRESENT], read.words[TEXT_LENGTH], &read.units[..2]), (1, 4, &[0xD83D, 0xDE00][..]));
    }
}

#[test]
fn a_number_that_is_cut_stays() {
    let mut data = vec![0; 8 + 36];
    data.extend([1, 2, 3, 4, 5, 6, 7]);
    let mut big = data.clone();
    big[44..48].reverse();
    assert_eq!(mirror::body(PAN1, &data, 8), Some(big));
}

#[test]
fn sections_of_other_kinds_keep_their_bodies() {
    let other = |size: [u8; 4]| [&section(b"grp1", size, 0)[..], &[1, 2, 3, 4]].concat();
    let little = [other([12, 0, 0, 0]), little_text(), other([12, 0, 0, 0])].concat();
    let big = [other([0, 0, 0, 12]), big_text(), other([0, 0, 0, 12])].concat();
    assert_eq!(mirror::strip(&little), Some(big));
}

#[test]
fn a_label_over_a_text_has_no_mirror() {
    let mut data = little_text();
    data[168..].copy_from_slice(&[0x41, 0x42, 0x41, 0x00]);
    data[8 + 120] = 168;
    assert_eq!(mirror::section(&data, 0), None);
    data[169] = 0x41;
    data[171] = 0x41;
    data.push(0);
    assert!(mirror::section(&data, 0).is_some_and(|big| big[168..] == data[168..]));
}
