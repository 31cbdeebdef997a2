//! How far a read looked: which bytes count, and that those up to the reach decide the read.
use bidlomeqa::layout::RECORD_WORDS;
use bidlomeqa::ByteOrder::{Big, Little};
use bidlomeqa::*;
use bytes::*;

mod bytes;

// All that a read gives; the next place is 0 of a body call.
#[derive(Debug, Clone, PartialEq)]
struct Read {
    end: usize,
    next: usize,
    reach: usize,
    words: [u64; RECORD_WORDS],
    record: Record,
}

impl Read {
    fn new(view: View, [end, next, reach]: [usize; 3], length: usize) -> Self {
        assert_eq!(view.reach(), reach);
        assert!(end <= reach && reach <= length);
        Self { end, next, reach, words: *view.words(), record: view.record() }
    }

    fn places(&self) -> [usize; 3] {
        [self.end, self.next, self.reach]
    }

    fn text_box(&self) -> &TextBoxPane {
        if let Own::Txt1(own) = &self.record.own {
            own
        } else {
            panic!("no text box")
        }
    }
}

fn read_section(order: ByteOrder, data: &[u8], place: usize) -> Result<Read, Refusal> {
    match Buffer::new().read_section(order, data, place)? {
        Section::Pane { view, end, next, reach } => Ok(Read::new(view, [end, next, reach], data.len())),
        other => panic!("no pane: {other:?}"),
    }
}

fn read_body(order: ByteOrder, kind: Kind, data: &[u8], place: usize) -> Result<Read, Refusal> {
    let mut buffer = Buffer::new();
    let Body { view, end, reach } = buffer.read_body(order, kind, data, place)?;
    Ok(Read::new(view, [end, 0, reach], data.len()))
}

// The section that `section` makes, read in both byte orders.
fn both(kind: Kind, after: &[u8], numbers: &[(usize, usize, u32)]) -> Read {
    let [little, big] = [Little, Big].map(|order| read_section(order, &section(order, kind, after, numbers), 0).unwrap());
    assert_eq!(little, big);
    little
}

fn text_box(change: impl Fn(&mut TextBoxPane)) -> Record {
    let mut own = TextBoxPane::default();
    change(&mut own);
    Record { base: Pane::default(), own: Own::Txt1(own) }
}

fn window(quads: usize, frames: usize) -> Record {
    let content = WindowContent { quads: vec![Quad::default(); quads], ..Default::default() };
    let own = WindowPane { content, frames: vec![WindowFrame::default(); frames], ..Default::default() };
    Record { base: Pane::default(), own: Own::Wnd1(own) }
}

// Panes of every kind, with all of their parts, some and none.
fn records() -> Vec<Record> {
    let picture = PicturePane { quads: vec![Quad::default(); 2], shape_info_array_index: Some(7), ..Default::default() };
    let whole = text_box(|own| {
        own.fixed.text_length = 3;
        own.fixed.text_flags.is_line_transform = true;
        own.text = Some(vec![0x41]);
        own.label = Some("label".into());
        own.line_transforms = Some(vec![LineTransform::default(); 2]);
    });
    let kinds = [Own::Pan1, Own::Pic1(picture), Own::Pic1(PicturePane::default()), Own::Ali1(AlignmentPane::default())];
    let others = [whole, text_box(|own| own.label = Some(String::new())), text_box(|_| ()), window(1, 3), window(2, 0)];
    kinds.map(|own| Record { base: Pane::default(), own }).into_iter().chain(others).collect()
}

#[test]
fn the_examples_of_the_request() {
    let reserved = both(Kind::Ali1, b"", &[]);
    assert_eq!(reserved.places(), [96, 96, 96]);
    let only_sought = both(Kind::Txt1, &[0; 8], &[(TEXT_LENGTH, 2, 1), (TEXT, 4, 176)]);
    assert_eq!(only_sought.places(), [168, 176, 168]);
    assert_eq!(only_sought.text_box().text.as_deref(), Some(&[][..]));
    let empty_label = both(Kind::Txt1, b"AAAAA\0AA", &[(LABEL, 4, 173)]);
    assert_eq!(empty_label.places(), [168, 176, 174]);
    assert_eq!(empty_label.text_box().label.as_deref(), Some(""));
    let no_frames = both(Kind::Wnd1, &[0; 28], &[(CONTENT, 4, 112), (TABLE, 4, 140)]);
    assert_eq!(no_frames.places(), [112, 140, 132]);
}

#[test]
fn a_label_counts_with_its_nul() {
    let read = both(Kind::Txt1, b"Aab\0AAAA", &[(LABEL, 4, 169)]);
    assert_eq!(read.places(), [168, 176, 172]);
    assert_eq!(read.text_box().label.as_deref(), Some("ab"));
}

#[test]
fn whole_units_of_a_text_count_though_it_is_ill_formed() {
    for (byte, units) in [(0x41, Some(vec![0x4141; 2])), (0xD8, None)] {
        let read = both(Kind::Txt1, &[byte; 8], &[(TEXT_LENGTH, 2, 5), (TEXT, 4, 169)]);
        assert_eq!(read.places(), [168, 176, 173]);
        assert_eq!(read.text_box().text, units);
    }
}

#[test]
fn a_line_table_counts_from_its_count_on() {
    let flag = (TEXT_FLAGS, 2, 0x40);
    let empty = both(Kind::Txt1, &[0; 12], &[flag, (LINES, 4, 170)]);
    assert_eq!(empty.places(), [168, 180, 171]);
    assert_eq!(empty.text_box().line_transforms, Some(Vec::new()));
    let one = both(Kind::Txt1, &[0; 12], &[flag, (LINES, 4, 170), (170, 1, 1)]);
    assert_eq!(one.places(), [168, 180, 179]);
    assert_eq!(one.text_box().line_transforms, Some(vec![LineTransform::default()]));
}

#[test]
fn offsets_without_their_flag_are_not_followed() {
    let read = both(Kind::Txt1, &[0; 12], &[(LINES, 4, 170), (PER_CHARACTER, 4, 171)]);
    assert_eq!(read.places(), [168, 180, 168]);
}

#[test]
fn the_part_of_a_window_that_lies_furthest_counts() {
    // A frame last, whose fourth byte is reserved; the table last; the content last, whose last byte is reserved.
    for (frame, table, content) in [(136, 112, 116), (112, 136, 116), (112, 116, 120)] {
        let numbers = [(FRAMES, 1, 1), (CONTENT, 4, content), (TABLE, 4, table), (table as usize, 4, frame)];
        assert_eq!(both(Kind::Wnd1, &[0; 32], &numbers).places(), [112, 144, 140]);
    }
}

#[test]
fn a_picture_is_read_to_its_end() {
    let read = both(Kind::Pic1, &[0; 40], &[(8 + 94, 1, 1), (8 + 95, 1, 2)]);
    assert_eq!(read.places(), [140, 144, 140]);
}

#[test]
fn what_is_written_last_is_what_is_read_furthest() {
    for order in [Little, Big] {
        // After the content of a window with no frames there is padding, which is not read.
        for record in records().into_iter().filter(|record| *record != window(2, 0)) {
            let mut out = vec![0; 400];
            let end = Buffer::new().write_body(order, &record, &mut out, 9).unwrap();
            assert_eq!(read_body(order, record.own.kind(), &out, 9).unwrap().reach, end);
        }
    }
}

// That the bytes from a place up to the reach decide the read, and that a buffer which is cut below the reach is refused.
fn decide(page: &[u8], from: usize, read: impl Fn(&[u8]) -> Result<Read, Refusal>) {
    let whole = read(page).unwrap();
    for (length, byte) in [(page.len(), 0), (page.len(), 0xFF), (page.len() + 5, 0x41)] {
        let mut other = vec![byte; length];
        other[from..whole.reach].copy_from_slice(&page[from..whole.reach]);
        assert_eq!(read(&other).as_ref(), Ok(&whole));
    }
    for n in from + 1..whole.reach {
        assert!(read(&page[..n]).is_err());
    }
}

#[test]
fn the_bytes_up_to_the_reach_decide_the_read() {
    for order in [Little, Big] {
        let page = write_strip(order, &records()).unwrap();
        let mut place = 0;
        for record in records() {
            let kind = record.own.kind();
            decide(&page, place, |data| read_section(order, data, place));
            decide(&page, place, |data| read_body(order, kind, data, place + 8));
            let read = read_section(order, &page, place).unwrap();
            assert_eq!(read.record, record);
            place = read.next;
        }
        assert_eq!(place, page.len());
    }
}

#[test]
fn a_part_of_a_body_may_lie_anywhere() {
    for order in [Little, Big] {
        let mut page = section(order, Kind::Txt1, b"", &[(LABEL, 4, 300)]);
        page.resize(300, 0xFF);
        page.extend(b"far\0 away");
        let read = read_body(order, Kind::Txt1, &page, 8).unwrap();
        assert_eq!((read.places(), read.text_box().label.as_deref()), ([168, 0, 304], Some("far")));
        decide(&page, 0, |data| read_body(order, Kind::Txt1, data, 8));
    }
}

#[test]
fn a_buffer_cut_at_the_reach_may_be_refused() {
    let text = section(Little, Kind::Txt1, &[0; 8], &[(TEXT, 4, 176)]);
    assert_eq!(read_body(Little, Kind::Txt1, &text, 8).unwrap().reach, 168);
    assert_eq!(read_body(Little, Kind::Txt1, &text[..168], 8).unwrap_err().figures(), (4, 168, 8));
    let table = section(Little, Kind::Wnd1, &[0; 28], &[(CONTENT, 4, 112), (TABLE, 4, 140)]);
    assert_eq!(read_body(Little, Kind::Wnd1, &table, 8).unwrap().reach, 132);
    assert_eq!(read_body(Little, Kind::Wnd1, &table[..132], 8).unwrap_err().figures(), (4, 132, 8));
    let padded = section(Little, Kind::Pan1, &[0; 4], &[]);
    assert_eq!(read_section(Little, &padded, 0).unwrap().reach, 84);
    assert_eq!(read_section(Little, &padded[..84], 0).unwrap_err().figures(), (8, 4, 88));
}
