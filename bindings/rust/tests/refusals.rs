//! Every refusal: its number, its figures and its sentence.
use bidlomeqa::layout::LITTLE;
use bidlomeqa::ByteOrder::Little;
use bidlomeqa::*;

fn write(record: &Record) -> Refusal {
    Buffer::new().write_body(Little, record, &mut vec![0; 20_000], 8).unwrap_err()
}

fn read(kind: Kind, data: &[u8], place: usize) -> Refusal {
    Buffer::new().read_body(Little, kind, data, place).map(|body| body.end).unwrap_err()
}

fn says(refusal: Refusal, figures: (u64, u64, u64), sentence: &str) {
    assert_eq!(refusal.figures(), figures);
    assert_eq!(refusal.to_string(), sentence);
    let (number, a, b) = figures;
    assert_eq!(Refusal::of(number, a, b), Some(refusal));
}

fn text_box(change: impl Fn(&mut TextBoxPane)) -> Record {
    let mut own = TextBoxPane::default();
    change(&mut own);
    Record { base: Pane::default(), own: Own::Txt1(own) }
}

fn named(text: &[u8]) -> Record {
    let base = Pane { pane_name: FixedString::new(text).unwrap(), ..Default::default() };
    Record { base, own: Own::Pan1 }
}

#[test]
fn reads_that_are_refused() {
    says(read(Kind::Pan1, &vec![0; 16_777_217], 8), (1, 16_777_217, 0), "the buffer or label has 16777217 bytes; at most 16777216 are taken");
    says(
        read(Kind::Pan1, &[0; 84], 7),
        (2, 7, 0),
        "7 is no place for this call: a section begins at a multiple of 4, a body at 8 or later, neither beyond the buffer",
    );
    says(read(Kind::Pan1, &[0; 12], 8), (4, 12, 24), "the bytes run out: 24 asked for at 12");
    let mut data = vec![0; 8 + 160];
    data[8 + 120] = 168;
    data.extend(b"abc");
    says(read(Kind::Txt1, &data, 8), (5, 168, 0), "the label at 168 meets no NUL before the end of the buffer");
    data.push(0);
    data[8 + 86] = 0x10;
    data[8 + 156] = 9;
    says(read(Kind::Txt1, &data, 8), (6, 9, 0), "the text box has a per-character transform at offset 9, which is not read");
    data[8 + 156] = 0;
    data[168] = 0xFF;
    says(read(Kind::Txt1, &data, 8), (7, 168, 3), "the label at 168 is ill-formed UTF-8");
    let refusal = Buffer::new().read_section(Little, b"ali1\x09\0\0\0\0\0\0\0", 0).map(|_| ()).unwrap_err();
    says(refusal, (8, 4, 9), "the section size 9 at 4 is below 8, no multiple of 4, or passes the buffer");
    let behind = [b"ali1\x08\0\0\0", &[0; 88][..]].concat();
    let refusal = Buffer::new().read_section(Little, &behind, 0).map(|_| ()).unwrap_err();
    says(refusal, (19, 96, 8), "the pane looks as far as 96, past the end of its section at 8");
}

#[test]
fn zeros_cut_short_as_document_01_has_them() {
    for (length, figures) in [(8, (4, 8, 1)), (12, (4, 12, 24)), (13, (4, 13, 8)), (37, (4, 37, 4))] {
        assert_eq!(read(Kind::Ali1, &vec![0; length], 8).figures(), figures);
    }
}

#[test]
fn short_lists_are_refused() {
    let mut quads = vec![0; 2039];
    let mut lists = calls::ReadLists { quads: &mut quads, units: &mut [], lines: &mut [], frames: &mut [] };
    let (mut record, mut answer) = ([7; layout::RECORD_WORDS], [0; layout::ANSWER_WORDS]);
    let code = calls::read_section(LITTLE, b"", 0, &mut lists, &mut record, &mut answer);
    assert_eq!((code, answer), (layout::REFUSED, [3, 1, 2040]));
    assert_eq!(record, [7; layout::RECORD_WORDS]);
    says(Refusal::of(3, 1, 2040).unwrap(), (3, 1, 2040), "the lent list of quads is too short: it needs 2040 numbers");
}

#[test]
fn names_that_are_refused() {
    says(write(&named(b"a\0b")), (9, 1, 0), "the pane name is too long, has a NUL, or is ill-formed UTF-8");
    says(write(&named(b"\xff")), (9, 1, 0), "the pane name is too long, has a NUL, or is ill-formed UTF-8");
    let label = text_box(|own| own.label = Some("a\0b".into()));
    says(write(&label), (9, 3, 0), "the label is too long, has a NUL, or is ill-formed UTF-8");
    assert_eq!(FixedString::<8>::new(b"ninebytes"), None);
    let mut record = Record::default();
    record.base.flag_ex.reserve0 = 32;
    says(write(&record), (10, 32, 0), "reserve0 is 32; at most 31 fit");
}

#[test]
fn lists_that_are_refused() {
    let own = PicturePane { quads: vec![Quad::default(); 256], ..Default::default() };
    says(
        write(&Record { base: Pane::default(), own: Own::Pic1(own) }),
        (11, 1, 2048),
        "the list of quads has 2048 numbers: not a whole count of entries, or more than 255 of them",
    );
    let text = text_box(|own| own.text = Some(vec![0x41]));
    says(write(&text), (13, 1, 0), "the text has 1 units, but its text_length 0 says 0");
    let text = text_box(|own| {
        own.text = Some(vec![0x41, 0xD800]);
        own.fixed.text_length = 4;
    });
    says(write(&text), (14, 1, 0), "the text is ill-formed UTF-16 at unit 1");
    let lines = text_box(|own| own.line_transforms = Some(Vec::new()));
    says(write(&lines), (15, 0, 0), "there is a line table, but the flag is_line_transform is not set");
}

#[test]
fn a_flip_beyond_the_known_ones_is_refused() {
    let own = WindowPane { frames: vec![WindowFrame::default(); 2], ..Default::default() };
    let mut buffer = Buffer::new();
    let mut out = vec![0; 300];
    let end = buffer.write_body(Little, &Record { base: Pane::default(), own: Own::Wnd1(own) }, &mut out, 8).unwrap();
    let words = *buffer.read_body(Little, Kind::Wnd1, &out[..end], 8).unwrap().view.words();
    let lists = calls::WriteLists { quads: &[], units: &[], lines: &[], frames: &[1, 2, 3, 6], label: &[] };
    let mut answer = [0; layout::ANSWER_WORDS];
    let code = calls::write_body(LITTLE, &words, lists, &mut out, 8, &mut answer);
    assert_eq!((code, answer), (layout::REFUSED, [12, 1, 6]));
    says(Refusal::of(12, 1, 6).unwrap(), (12, 1, 6), "frame 1 has the flip 6; at most 5 is known");
}

#[test]
fn an_output_without_room_is_refused_and_unchanged() {
    let mut out = [7; 83];
    let refusal = Buffer::new().write_body(Little, &Record::default(), &mut out, 8).unwrap_err();
    says(refusal, (16, 84, 83), "what is written ends at 84, and the output has 83 bytes");
    assert_eq!(out, [7; 83]);
}

#[test]
fn a_refused_section_tells_its_place() {
    let mut strip = write_strip(Little, &[Record::default()]).unwrap();
    strip.extend(b"ali1\x08\0\0\0");
    let refused = read_strip(Little, &strip).unwrap_err();
    assert_eq!(refused.to_string(), "section at 84: the bytes run out: 1 asked for at 92");
}

#[test]
fn other_numbers_are_no_refusals() {
    for number in [0, 17, 18, 20, u64::MAX] {
        assert_eq!(Refusal::of(number, 0, 0), None);
    }
}
