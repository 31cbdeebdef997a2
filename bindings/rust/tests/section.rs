//! A pane keeps to its section: a section read that looks past the section's end is refused by 19, and a body read is not.
use bidlomeqa::calls::{self, Answer, ReadLists};
use bidlomeqa::layout::{BIG, LITTLE, PANE, RECORD_WORDS, REFUSED};
use bidlomeqa::ByteOrder::{Big, Little};
use bidlomeqa::Kind::{Ali1, Pan1, Pic1, Txt1, Wnd1};
use bidlomeqa::*;
use bytes::*;

mod bytes;

// The places that a section read answers, and how it is refused: number, a, b. A refusal leaves the record and all lists as they were.
fn read_section(order: ByteOrder, data: &[u8], place: usize) -> Result<[u64; 3], (u64, u64, u64)> {
    let number = if order == Little { LITTLE } else { BIG };
    let (mut quads, mut units, mut lines, mut frames) = (vec![7; 2040], vec![7; 32767], vec![7; 510], vec![7; 510]);
    let mut lists = ReadLists { quads: &mut quads, units: &mut units, lines: &mut lines, frames: &mut frames };
    let (mut words, mut answer) = ([7; RECORD_WORDS], Answer::default());
    let code = calls::read_section(number, data, place, &mut lists, &mut words, &mut answer);
    let typed = Buffer::new().read_section(order, data, place).map(|section| matches!(section, Section::Pane { .. })).map_err(Refusal::figures);
    if code == REFUSED {
        let lists = [quads, lines].concat().iter().all(|n| *n == 7) && [units, frames].concat().iter().all(|n| *n == 7);
        assert!(words == [7; RECORD_WORDS] && lists);
        let no = (answer[0], answer[1], answer[2]);
        assert_eq!(typed, Err(no));
        return Err(no);
    }
    assert_eq!((code, typed), (PANE, Ok(true)));
    Ok(answer)
}

// The end and the reach that a body read answers, and how it is refused.
fn read_body(order: ByteOrder, kind: Kind, data: &[u8]) -> Result<[usize; 2], (u64, u64, u64)> {
    Buffer::new().read_body(order, kind, data, 8).map(|body| [body.end, body.reach]).map_err(Refusal::figures)
}

// A pane whose body ends at one place and whose read looks as far as the other, in a section of every size: those that hold it are read, the others are
// refused by 19. A body read takes no notice of the size.
fn sizes(kind: Kind, after: &[u8], numbers: &[Number], [end, reach]: [usize; 2]) {
    for order in [Little, Big] {
        let whole = section(order, kind, &[after, &[0; 12]].concat(), numbers);
        let mut kept = 0;
        for size in (8..=whole.len() as u64).step_by(4) {
            let data = section(order, kind, &[after, &[0; 12]].concat(), &[numbers, &[(SECTION_SIZE, 4, size as u32)]].concat());
            let keeps = size >= reach as u64;
            let expected = if keeps { Ok([end as u64, size, reach as u64]) } else { Err((19, reach as u64, size)) };
            assert_eq!(read_section(order, &data, 0), expected);
            assert_eq!(read_body(order, kind, &data), Ok([end, reach]));
            kept += usize::from(keeps);
        }
        assert!(kept >= 3);
    }
}

#[test]
fn the_examples_of_the_request() {
    for order in [Little, Big] {
        let behind = section(order, Ali1, b"", &[(SECTION_SIZE, 4, 8)]);
        assert_eq!(read_section(order, &behind, 0), Err((19, 96, 8)));
        assert_eq!(read_body(order, Ali1, &behind), Ok([96, 96]));
        assert_eq!(read_section(order, &behind[..8], 0), Err((4, 8, 1)));
        let whole = section(order, Ali1, b"", &[]);
        assert_eq!(read_section(order, &whole, 0), Ok([96, 96, 96]));
        let ill_formed = section(order, Txt1, b"\xFF\0\0\0", &[(SECTION_SIZE, 4, 168), (LABEL, 4, 168)]);
        assert_eq!(read_section(order, &ill_formed, 0), Err((7, 168, 3)));
        assert_eq!(read_body(order, Txt1, &ill_formed), Err((7, 168, 3)));
        let sought = section(order, Txt1, &[0; 4], &[(SECTION_SIZE, 4, 168), (TEXT, 4, 172)]);
        assert_eq!(read_section(order, &sought, 0), Ok([168, 168, 168]));
        assert_eq!(read_body(order, Txt1, &sought), Ok([168, 168]));
    }
}

#[test]
fn kinds_without_offsets() {
    sizes(Pan1, b"", &[], [84, 84]);
    sizes(Ali1, b"", &[], [96, 96]);
    sizes(Pic1, b"", &[], [104, 104]);
    sizes(Pic1, &[0; 64], &[(QUADS, 1, 2)], [168, 168]);
    sizes(Pic1, &[0; 4], &[(SHAPE, 1, 1)], [108, 108]);
    sizes(Pic1, &[0; 36], &[(QUADS, 1, 1), (SHAPE, 1, 9)], [140, 140]);
}

#[test]
fn parts_of_a_text_box() {
    sizes(Txt1, b"", &[], [168, 168]);
    sizes(Txt1, b"_A\0B\0", &[(TEXT_LENGTH, 2, 5), (TEXT, 4, 169)], [168, 173]);
    sizes(Txt1, b"__ab\0", &[(LABEL, 4, 170)], [168, 173]);
    sizes(Txt1, b"\0", &[(LABEL, 4, 168)], [168, 169]);
    sizes(Txt1, b"\0", &[(TEXT_FLAGS, 2, 0x40), (LINES, 4, 168)], [168, 169]);
    sizes(Txt1, b"___\x01\0\0\0\0\0\0\0\0", &[(TEXT_FLAGS, 2, 0x40), (LINES, 4, 171)], [168, 180]);
    // Without its flag a table is not read, wherever its offset leads.
    sizes(Txt1, b"", &[(LINES, 4, 180), (PER_CHARACTER, 4, 180)], [168, 168]);
    // A text in ill-formed UTF-16 is read, and absent.
    sizes(Txt1, b"\xD8\xD8", &[(TEXT_LENGTH, 2, 2), (TEXT, 4, 168)], [168, 170]);
    // The part that lies furthest counts.
    sizes(Txt1, b"ab\0_A\0", &[(LABEL, 4, 168), (TEXT_LENGTH, 2, 2), (TEXT, 4, 172)], [168, 174]);
    sizes(Txt1, b"A\0__ab\0", &[(LABEL, 4, 172), (TEXT_LENGTH, 2, 2), (TEXT, 4, 168)], [168, 175]);
}

#[test]
fn parts_of_a_window() {
    // The content, whose quads are counted in its byte 18: alone, with a quad, and within the fixed bytes.
    sizes(Wnd1, &[0; 20], &[(CONTENT, 4, 112)], [112, 132]);
    sizes(Wnd1, &[0; 53], &[(CONTENT, 4, 113), (131, 1, 1)], [112, 165]);
    sizes(Wnd1, b"", &[(CONTENT, 4, 8)], [112, 112]);
    // The table of frames, and a frame.
    sizes(Wnd1, &[0; 8], &[(CONTENT, 4, 8), (FRAMES, 1, 2), (TABLE, 4, 112), (112, 4, 8), (116, 4, 12)], [112, 120]);
    sizes(Wnd1, &[0; 9], &[(CONTENT, 4, 8), (FRAMES, 1, 1), (TABLE, 4, 112), (112, 4, 117)], [112, 121]);
    sizes(Wnd1, &[0; 12], &[(CONTENT, 4, 8), (FRAMES, 1, 2), (TABLE, 4, 112), (112, 4, 120), (116, 4, 8)], [112, 124]);
}

#[test]
fn a_place_where_nothing_is_read_may_lie_behind_the_section() {
    // A text with no units, and a table with no frames.
    sizes(Txt1, b"", &[(TEXT_LENGTH, 2, 1), (TEXT, 4, 180)], [168, 168]);
    sizes(Wnd1, b"", &[(CONTENT, 4, 8), (TABLE, 4, 124)], [112, 112]);
    // It must not lie behind the buffer.
    let data = section(Little, Txt1, &[0; 8], &[(SECTION_SIZE, 4, 168), (TEXT, 4, 172)]);
    assert_eq!(read_section(Little, &data[..172], 0), Ok([168, 168, 168]));
    assert_eq!(read_section(Little, &data[..168], 0), Err((4, 168, 4)));
}

#[test]
fn what_is_looked_for_before_it() {
    for order in [Little, Big] {
        let small = |kind: Kind, after: &[u8], numbers: &[Number]| {
            let data = section(order, kind, after, &[&[(SECTION_SIZE, 4, 8)], numbers].concat());
            (read_section(order, &data, 0), read_body(order, kind, &data))
        };
        let no = |number, a, b| (Err((number, a, b)), Err((number, a, b)));
        assert_eq!(small(Ali1, b"", &[(12, 1, 0xFF)]), no(7, 12, 1));
        assert_eq!(small(Ali1, b"", &[(36, 1, 0xFF)]), no(7, 36, 2));
        assert_eq!(small(Txt1, b"\xFF\0", &[(LABEL, 4, 168)]), no(7, 168, 3));
        assert_eq!(small(Txt1, b"", &[(TEXT_FLAGS, 2, 0x10), (PER_CHARACTER, 4, 9)]), no(6, 9, 0));
        assert_eq!(small(Txt1, b"label", &[(LABEL, 4, 168)]), no(5, 168, 0));
        assert_eq!(small(Pic1, &[0; 31], &[(QUADS, 1, 1)]), no(4, 132, 4));
        assert_eq!(small(Wnd1, b"", &[(CONTENT, 4, 200)]), no(4, 112, 88));
        let odd = section(order, Ali1, b"", &[(SECTION_SIZE, 4, 9)]);
        assert_eq!(read_section(order, &odd, 0), Err((8, 4, 9)));
    }
}

#[test]
fn a_section_of_another_kind_is_passed() {
    let mut data = section(Little, Ali1, b"", &[(SECTION_SIZE, 4, 8)]);
    data[..4].copy_from_slice(b"usd1");
    assert!(matches!(Buffer::new().read_section(Little, &data, 0), Ok(Section::Passed { next: 8 })));
}

// A page of three panes, the label of the second in the third's section.
fn page(order: ByteOrder) -> Vec<u8> {
    let text_box = section(order, Txt1, b"", &[(LABEL, 4, 168 + 12)]);
    let mut named = section(order, Pan1, b"", &[]);
    named[12..17].copy_from_slice(b"Third");
    [section(order, Pan1, b"", &[]), text_box, named].concat()
}

#[test]
fn a_page_is_refused_at_the_pane_that_does_not_keep_to_its_section() {
    for order in [Little, Big] {
        let refused = read_page(order, &page(order)).unwrap_err();
        assert_eq!(refused, Refused { place: 84, refusal: Refusal::PastSection { reach: 270, end: 252 } });
        assert_eq!(refused.to_string(), "section at 84: the pane looks as far as 270, past the end of its section at 252");
        assert_eq!(read_strip(order, &page(order)), Err(refused));
    }
}

#[test]
fn a_body_that_is_read_by_itself_is_written_into_a_section_of_its_own() {
    for order in [Little, Big] {
        let page = page(order);
        let mut buffer = Buffer::new();
        let Body { view, end, reach } = buffer.read_body(order, Txt1, &page, 92).unwrap();
        assert_eq!((end, reach, view.label()), (252, 270, Some(&b"Third"[..])));
        let record = view.record();
        let strip = write_strip(order, std::slice::from_ref(&record)).unwrap();
        assert_eq!(read_section(order, &strip, 0), Ok([168, 176, 174]));
        assert_eq!(read_strip(order, &strip), Ok(vec![record]));
    }
}

#[test]
fn the_bytes_of_its_section_decide_a_pane() {
    for order in [Little, Big] {
        let data = section(order, Txt1, b"A\0ab\0___", &[(TEXT_LENGTH, 2, 2), (TEXT, 4, 168), (LABEL, 4, 170)]);
        let alone = read_section(order, &data, 0);
        assert_eq!(alone, Ok([168, 176, 173]));
        for byte in [0, 0x41, 0xFF] {
            for more in [1, 4, 300] {
                assert_eq!(read_section(order, &[&data[..], &vec![byte; more]].concat(), 0), alone);
            }
        }
    }
}
