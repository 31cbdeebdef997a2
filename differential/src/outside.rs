//! The differences outside document 01's domain: the smallest input of each, and what both do with it. docs/DIFFERENCES.md tells why.
use crate::generate::records::{put_pane_name, put_user_name};
use crate::oracle;
use crate::panes::AnyPane;
use crate::whole::*;
use bidlomeqa::calls::{self, ReadLists, WriteLists};
use bidlomeqa::layout::*;
use nnbfl::bflyt::flags::{PaneFlagsEx, TextPaneFlags};
use nnbfl::bflyt::pane::*;
use nnbfl::core::{Cursor, FormatError, Writer};
use std::panic::catch_unwind;

/// One difference: what it is about, what nnbfl did, what the library did, and what the two are known to do.
pub struct Row {
    pub what: &'static str,
    pub nnbfl: String,
    pub library: String,
    pub known: [&'static str; 2],
}

fn telling(error: FormatError) -> String {
    match error {
        FormatError::UnexpectedEof { offset, requested_bytes } => format!("out of bytes: {requested_bytes} at {offset}"),
        other => other.to_string(),
    }
}

fn nnbfl_reads(kind: u64, data: &[u8], place: usize, tell: fn(&AnyPane) -> String) -> String {
    let start = place.wrapping_sub(8);
    let parse = || {
        let mut cursor = Cursor { data, pos: place, section_start: Some(start), ..Default::default() };
        match AnyPane::parse(kind, &mut cursor) {
            Ok(pane) => format!("read{}, ends at {}", tell(&pane), cursor.pos),
            Err(error) => telling(error),
        }
    };
    catch_unwind(parse).unwrap_or("panicked".into())
}

fn answered(code: u64, [a, b, c]: [u64; 3]) -> String {
    match code {
        PANE => format!("read, ends at {a}"),
        WRITTEN => format!("written, ends at {a}"),
        REFUSED => format!("refused by {a}: {b}, {c}"),
        code => format!("answered {code}"),
    }
}

fn library_reads(kind: u64, data: &[u8], place: usize) -> String {
    let (code, answer, _) = read_body(LITTLE, kind, data, place);
    answered(code, answer)
}

fn read_body(order: u64, kind: u64, data: &[u8], place: usize) -> (u64, [u64; ANSWER_WORDS], [u64; RECORD_WORDS]) {
    with_lists(|lists, words, answer| calls::read_body(order, kind, data, place, lists, words, answer))
}

// A read with full lists: what it returns, its answer and its record.
fn with_lists(call: impl Fn(&mut ReadLists, &mut [u64], &mut [u64]) -> u64) -> (u64, [u64; ANSWER_WORDS], [u64; RECORD_WORDS]) {
    let (mut quads, mut units) = (vec![0; FULL[0]], vec![0; FULL[1]]);
    let (mut lines, mut frames) = (vec![0; FULL[2]], vec![0; FULL[3]]);
    let mut lists = ReadLists { quads: &mut quads, units: &mut units, lines: &mut lines, frames: &mut frames };
    let (mut answer, mut words) = ([0; ANSWER_WORDS], [0; RECORD_WORDS]);
    let code = call(&mut lists, &mut words, &mut answer);
    (code, answer, words)
}

fn nothing(_: &AnyPane) -> String {
    String::new()
}

fn name(pane: &AnyPane) -> String {
    format!(" {:?}", pane.base().pane_name)
}

fn label(pane: &AnyPane) -> String {
    match pane {
        AnyPane::Txt1(p) => format!(" {:?}", p.label),
        _ => String::new(),
    }
}

// What nnbfl reads of a pane that it wrote at 8, and how far it wrote.
fn nnbfl_writes(kind: u64, pane: AnyPane, tell: fn(&AnyPane) -> String) -> String {
    let mut writer = Writer::new();
    writer.write_bytes(&[0; 8]);
    writer.section_start = Some(0);
    pane.write(&mut writer);
    format!("written to {}; {}", writer.pos(), nnbfl_reads(kind, &writer.buffer, 8, tell))
}

fn library_writes(w: &Whole) -> String {
    let mut answer = [0; ANSWER_WORDS];
    let lists = WriteLists { quads: &w.quads, units: &w.units, lines: &w.lines, frames: &w.frames, label: &w.label };
    let code = calls::write_body(LITTLE, &w.words, lists, &mut vec![0; 20_000], 8, &mut answer);
    answered(code, answer)
}

fn blank(kind: u64) -> Whole {
    let mut w = Whole::default();
    w.words[KIND] = kind;
    w
}

fn row(what: &'static str, nnbfl: String, library: String, known: [&'static str; 2]) -> Row {
    Row { what, nnbfl, library, known }
}

fn reading() -> Vec<Row> {
    let read = |what, kind, data: &[u8], place, tell, known| row(what, nnbfl_reads(kind, data, place, tell), library_reads(kind, data, place), known);
    let mut named = vec![0; 84];
    named[12] = 0xFF;
    let mut labelled = vec![0; 170];
    labelled[8 + 120] = 168;
    labelled[168] = 0xFF;
    let mut transformed = vec![0; 180];
    transformed[8 + 86] = 0x10;
    transformed[8 + 156] = 168;
    let mut window = vec![0; 124];
    window[96] = 8;
    window[100] = 8;
    vec![
        read("B below 8, a base pane at 0", PAN1, &[0; 76], 0, nothing, ["read, ends at 76", "refused by 2: 0, 0"]),
        read("B below 8, a window at 0 with offsets of 8", WND1, &window, 0, nothing, ["read, ends at 104", "refused by 2: 0, 0"]),
        read("B above the length: an empty buffer, B = 8", PAN1, &[], 8, nothing, ["out of bytes: 1 at 8", "refused by 2: 8, 0"]),
        read("a buffer of 16,777,217 zeros, B = 8", PAN1, &vec![0; 16_777_217], 8, nothing, ["read, ends at 84", "refused by 1: 16777217, 0"]),
        read("a pane name of the byte FF", PAN1, &named, 8, name, ["read \"\u{fffd}\", ends at 84", "refused by 7: 12, 1"]),
        read("a label of the byte FF", TXT1, &labelled, 8, label, ["read Some(\"\u{fffd}\"), ends at 168", "refused by 7: 168, 3"]),
        read("flag bit 4 and a per-character offset", TXT1, &transformed, 8, nothing, ["read, ends at 180", "refused by 6: 168, 0"]),
    ]
}

fn base_with(change: impl Fn(&mut Pane)) -> AnyPane {
    let mut pane = Pane::default();
    change(&mut pane);
    AnyPane::Pan1(pane)
}

fn reserve0(pane: &AnyPane) -> String {
    format!(" {}", pane.base().flag_ex.reserve0)
}

fn names() -> Vec<Row> {
    let long = "a".repeat(25);
    let split = "a".repeat(23) + "\u{e9}";
    let named = |text: &str, user: &str| {
        let mut w = blank(PAN1);
        put_pane_name(&mut w, text.as_bytes());
        put_user_name(&mut w, user.as_bytes());
        library_writes(&w)
    };
    let write = |text: &str| nnbfl_writes(PAN1, base_with(|p| p.pane_name = text.into()), name);
    let user = |text: &str| nnbfl_writes(PAN1, base_with(|p| p.user_name = text.into()), |p| format!(" {:?}", p.base().user_name));
    vec![
        row(
            "a name of 25 letters",
            write(&long),
            named(&long, ""),
            ["written to 84; read \"aaaaaaaaaaaaaaaaaaaaaaaa\", ends at 84", "refused by 9: 1, 0"],
        ),
        row(
            "a name of 25 bytes whose last letter has two",
            write(&split),
            named(&split, ""),
            ["written to 84; read \"aaaaaaaaaaaaaaaaaaaaaaa\u{fffd}\", ends at 84", "refused by 9: 1, 0"],
        ),
        row(
            "a user name of 9 letters",
            user("123456789"),
            named("", "123456789"),
            ["written to 84; read \"12345678\", ends at 84", "refused by 9: 2, 0"],
        ),
        row("a name of the one byte 00", write("\0"), named("\0", ""), ["written to 84; read \"\", ends at 84", "refused by 9: 1, 0"]),
    ]
}

fn reserved() -> Row {
    let mut w = blank(PAN1);
    w.words[RESERVE0] = 32;
    let ex = PaneFlagsEx { reserve0: 32, ..Default::default() };
    let pane = base_with(|p| p.flag_ex = ex);
    row("reserve0 = 32", nnbfl_writes(PAN1, pane, reserve0), library_writes(&w), ["written to 84; read 0, ends at 84", "refused by 10: 32, 0"])
}

fn counts(pane: &AnyPane) -> String {
    match pane {
        AnyPane::Pic1(p) => format!(" {} quads", p.texture_uvs.len()),
        AnyPane::Wnd1(p) => format!(" {} frames", p.frames.len()),
        AnyPane::Txt1(p) => format!(" {:?} lines", p.line_transforms.as_ref().map(|t| t.entries.len())),
        _ => String::new(),
    }
}

fn lists() -> Vec<Row> {
    let mut quads = blank(PIC1);
    quads.quads = vec![0; 8 * 256];
    let mut frames = blank(WND1);
    frames.frames = vec![0; 2 * 256];
    let mut lines = blank(TXT1);
    lines.words[LINES_PRESENT] = 1;
    lines.words[TEXT_FLAGS + 6] = 1;
    lines.lines = vec![0; 2 * 256];
    let bit = TextPaneFlags { is_line_transform: true, ..Default::default() };
    let picture = PicturePane { texture_uvs: vec![TextureUv::default(); 256], ..Default::default() };
    let window = WindowPane { frames: vec![WindowFrame::default(); 256], ..Default::default() };
    let text_box = TextBoxPane { line_transforms: table(256), text_flags: bit, ..Default::default() };
    vec![
        row(
            "a picture with 256 quads",
            nnbfl_writes(PIC1, AnyPane::Pic1(picture), counts),
            library_writes(&quads),
            ["written to 8296; read 0 quads, ends at 104", "refused by 11: 1, 2048"],
        ),
        row(
            "a line table with 256 lines",
            nnbfl_writes(TXT1, AnyPane::Txt1(text_box), counts),
            library_writes(&lines),
            ["written to 2217; read Some(0) lines, ends at 168", "refused by 11: 3, 512"],
        ),
        row(
            "a window with 256 frames",
            nnbfl_writes(WND1, AnyPane::Wnd1(window), counts),
            library_writes(&frames),
            ["written to 2180; read 0 frames, ends at 112", "refused by 11: 4, 512"],
        ),
    ]
}

fn table(count: usize) -> Option<LineTransformTable> {
    Some(LineTransformTable { entries: vec![LineTransform::default(); count] })
}

fn no_line_bit() -> Row {
    let mut w = blank(TXT1);
    w.words[LINES_PRESENT] = 1;
    w.lines = vec![0; 2];
    let pane = AnyPane::Txt1(TextBoxPane { line_transforms: table(1), ..Default::default() });
    let known = ["written to 177; read None lines, ends at 168", "refused by 15: 0, 0"];
    row("one line, and flag bit 6 clear", nnbfl_writes(TXT1, pane, counts), library_writes(&w), known)
}

fn text(pane: &AnyPane) -> String {
    match pane {
        AnyPane::Txt1(p) => format!(" {:?}", p.text),
        _ => String::new(),
    }
}

fn texts() -> Vec<Row> {
    let mut unit = blank(TXT1);
    unit.words[TEXT_PRESENT] = 1;
    unit.units = vec![0x41];
    let mut nul = blank(TXT1);
    nul.words[LABEL_PRESENT] = 1;
    nul.label = vec![0];
    let text_box = TextBoxPane { text: Some("A".into()), ..Default::default() };
    let labelled = TextBoxPane { label: Some("\0".into()), ..Default::default() };
    vec![
        row(
            "one unit of text, text_length 0",
            nnbfl_writes(TXT1, AnyPane::Txt1(text_box), text),
            library_writes(&unit),
            ["written to 170; read Some(\"\"), ends at 168", "refused by 13: 1, 0"],
        ),
        row(
            "a label of the one byte 00",
            nnbfl_writes(TXT1, AnyPane::Txt1(labelled), label),
            library_writes(&nul),
            ["written to 170; read Some(\"\"), ends at 168", "refused by 9: 3, 0"],
        ),
    ]
}

fn shapes() -> Vec<Row> {
    let shape = PicturePane { is_shape: true, ..Default::default() };
    let index = PicturePane { shape_info_array_index: Some(7), ..Default::default() };
    let mut with_index = blank(PIC1);
    with_index.words[SHAPE_PRESENT] = 1;
    with_index.words[SHAPE_INDEX] = 7;
    let told = |pane: &AnyPane| match pane {
        AnyPane::Pic1(p) => format!(" {:?}", p.shape_info_array_index),
        _ => String::new(),
    };
    vec![
        row(
            "is_shape with no index",
            nnbfl_writes(PIC1, AnyPane::Pic1(shape), told),
            library_writes(&blank(PIC1)),
            ["written to 104; out of bytes: 4 at 104", "written, ends at 104"],
        ),
        row(
            "an index without is_shape",
            nnbfl_writes(PIC1, AnyPane::Pic1(index), told),
            library_writes(&with_index),
            ["written to 108; read None, ends at 104", "written, ends at 108"],
        ),
    ]
}

fn big_endian() -> Row {
    let mut data = [0; 96];
    data[8 + 79] = 1;
    let direction = |pane: &AnyPane| if let AnyPane::Ali1(p) = pane { format!(" {}", p.direction) } else { unreachable!() };
    let (code, [end, ..], words) = read_body(BIG, ALI1, &data, 8);
    assert_eq!(code, PANE);
    let library = format!("read {}, ends at {end}", words[DIRECTION]);
    row(
        "big-endian: a direction of 00 00 00 01",
        nnbfl_reads(ALI1, &data, 8, direction),
        library,
        ["read 16777216, ends at 96", "read 1, ends at 96"],
    )
}

// A pane that reads past its section: nnbfl's reads of bodies do not ask where the section ends.
fn past_section() -> Row {
    let data = [b"pan1\x08\0\0\0", &[0; 76][..]].concat();
    let (code, answer, _) = with_lists(|lists, words, answer| calls::read_section(LITTLE, &data, 0, lists, words, answer));
    let library = format!("section {}; body {}", answered(code, answer), library_reads(PAN1, &data, 8));
    let known = ["read, ends at 84", "section refused by 19: 84, 8; body read, ends at 84"];
    row("a base pane in a section of size 8, its 76 bytes behind it", nnbfl_reads(PAN1, &data, 8, nothing), library, known)
}

/// Every difference that can be run.
pub fn rows() -> Vec<Row> {
    let mut rows = reading();
    rows.push(past_section());
    rows.push(big_endian());
    rows.extend(names());
    rows.push(reserved());
    rows.extend(lists());
    rows.push(no_line_bit());
    rows.extend(texts());
    rows.extend(shapes());
    let mut room = [0; 83];
    let refused = oracle::write(&blank(PAN1), false, 8, &mut room, &mut Vec::new());
    let mut answer = [0; ANSWER_WORDS];
    let lists = WriteLists { quads: &[], units: &[], lines: &[], frames: &[], label: &[] };
    let code = calls::write_body(LITTLE, &blank(PAN1).words, lists, &mut room, 8, &mut answer);
    assert_eq!((code, answer), refused);
    let grown = nnbfl_writes(PAN1, base_with(|_| ()), nothing);
    rows.push(row("a pane into 83 bytes at 8", grown, answered(code, answer), ["written to 84; read, ends at 84", "refused by 16: 84, 83"]));
    rows
}
