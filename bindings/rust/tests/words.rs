//! The flat layout: what it refuses, and that the header and the C example go with it.
use bidlomeqa::calls::{self, Answer, ReadLists, WriteLists};
use bidlomeqa::layout::*;
use std::path::{Path, PathBuf};
use std::process::Command;

const NO_LISTS: WriteLists = WriteLists { quads: &[], units: &[], lines: &[], frames: &[], label: &[] };

fn repository() -> PathBuf {
    Path::new(env!("CARGO_MANIFEST_DIR")).join("../..")
}

fn written(record: &[u64]) -> (u64, Answer) {
    let (mut out, mut answer) = ([0; 400], Answer::default());
    let code = calls::write_body(LITTLE, record, NO_LISTS, &mut out, 8, &mut answer);
    assert!(code == WRITTEN || out == [0; 400]);
    (code, answer)
}

#[test]
fn a_short_answer_or_record_is_told() {
    let mut out = [0; 100];
    assert_eq!(calls::write_body(LITTLE, &[0; RECORD_WORDS], NO_LISTS, &mut out, 8, &mut [9, 9]), SHORT_ANSWER);
    assert_eq!(out, [0; 100]);
    assert_eq!(written(&[0; RECORD_WORDS - 1]), (SHORT_RECORD, [RECORD_WORDS as u64, 0, 0]));
    let mut lists = ReadLists { quads: &mut [], units: &mut [], lines: &mut [], frames: &mut [] };
    let mut answer = Answer::default();
    let code = calls::read_section(LITTLE, &[], 0, &mut lists, &mut [0; RECORD_WORDS - 1], &mut answer);
    assert_eq!((code, answer), (SHORT_RECORD, [RECORD_WORDS as u64, 0, 0]));
    assert_eq!(calls::label(&[], &[0; RECORD_WORDS], &mut []), SHORT_ANSWER);
}

// Runs of words of each kind: where they begin, how many they are, and what they stay below.
fn own_bounds(kind: u64) -> &'static [(usize, usize, u64)] {
    match kind {
        1 => &[(PICTURE_COLORS, 16, 256), (PICTURE_MATERIAL, 1, 65536), (SHAPE_PRESENT, 1, 2), (SHAPE_INDEX, 1, 1 << 32)],
        2 => &[
            (TEXT_BUFFER_SIZE, 4, 65536),
            (ORIGIN, 2, 3),
            (TEXT_ALIGNMENT, 1, 4),
            (TEXT_FLAGS, 14, 2),
            (MEASURE_KIND, 1, 2),
            (MEASURE, 2, 1 << 32),
            (ITALIC_TILT, 1, 1 << 32),
            (FONT_TOP_COLOR, 4, 256),
            (FONT_BOTTOM_COLOR, 4, 256),
            (CHARACTER_SPACE, 1, 1 << 32),
            (LINE_SPACE, 1, 1 << 32),
            (SHADOW_TRANSLATION, 2, 1 << 32),
            (SHADOW_SIZE, 2, 1 << 32),
            (SHADOW_TOP_COLOR, 4, 256),
            (SHADOW_BOTTOM_COLOR, 4, 256),
            (SHADOW_ITALIC_TILT, 1, 1 << 32),
            (TEXT_PRESENT, 1, 2),
            (LABEL_PRESENT, 1, 2),
            (LINES_PRESENT, 1, 2),
        ],
        3 => &[
            (INFLATION, 4, 65536),
            (FRAME_SIZE, 4, 65536),
            (WINDOW_FLAGS, 2, 2),
            (WINDOW_KIND, 1, 3),
            (NOT_DRAW_CONTENT, 1, 2),
            (CONTENT_COLORS, 16, 256),
            (CONTENT_MATERIAL, 1, 65536),
        ],
        4 => &[(DIRECTION, 1, 1 << 32), (DEFAULT_MARGIN, 1, 1 << 32), (IS_ALIGN_LAST_PANE, 1, 2), (IS_VERTICAL_ALIGNMENT, 1, 2)],
        _ => &[],
    }
}

// Each word of each kind with its bound; none where every number is taken.
fn bounds(kind: u64) -> Vec<(usize, u64)> {
    let base = [(KIND, 1, 5), (PANE_FLAGS, 8, 2), (POSITION, 4, 3), (ALPHA, 1, 256), (FLAG_EX, 3, 2), (RESERVE0, 1, 256)];
    let names = [(NAME, 24, 256), (USER, 8, 256), (TRANSLATION, 10, 1 << 32)];
    let runs = base.iter().chain(&names).chain(own_bounds(kind));
    runs.flat_map(|(from, count, bound)| (*from..from + count).map(|word| (word, *bound))).collect()
}

#[test]
fn a_word_beyond_its_bound_is_told() {
    for kind in 0..5 {
        let mut good = [0; RECORD_WORDS];
        good[KIND] = kind;
        assert_eq!(written(&good).0, WRITTEN);
        for (word, bound) in bounds(kind) {
            for value in [bound, u64::MAX] {
                let mut record = good;
                record[word] = value;
                assert_eq!(written(&record), (BAD_WORD, [word as u64, 0, 0]));
                record[RECORD_WORDS - 1] = u64::MAX;
                assert_eq!(written(&record), (BAD_WORD, [word as u64, 0, 0]));
            }
            let mut record = good;
            record[word] = bound - 1;
            assert_ne!(written(&record).0, BAD_WORD);
        }
    }
}

// The words that document 01 says a write does not read: counts, label place and label length.
fn unread(kind: u64) -> &'static [usize] {
    match kind {
        1 => &[PICTURE_QUADS],
        2 => &[LABEL_PLACE, LABEL_LENGTH, LINES_COUNT],
        3 => &[FRAMES_COUNT, CONTENT_QUADS],
        _ => &[],
    }
}

#[test]
fn a_write_reads_no_counts() {
    let lists = WriteLists { quads: &[7; 16], units: &[65], lines: &[8; 4], frames: &[9, 1], label: b"label" };
    for kind in 1..4 {
        let mut good = [0; RECORD_WORDS];
        good[KIND] = kind;
        if kind == 2 {
            good[TEXT_LENGTH] = 2;
            good[TEXT_FLAGS + 6] = 1;
            for present in [TEXT_PRESENT, LABEL_PRESENT, LINES_PRESENT] {
                good[present] = 1;
            }
        }
        let write = |record: &[u64]| {
            let (mut body, mut section, mut answers) = ([0; 400], [0; 400], [Answer::default(); 2]);
            let codes = [
                calls::write_body(LITTLE, record, lists, &mut body, 8, &mut answers[0]),
                calls::write_section(LITTLE, record, lists, &mut section, 0, &mut answers[1]),
            ];
            (codes, answers, body, section)
        };
        let expected = write(&good);
        assert_eq!(expected.0, [WRITTEN; 2]);
        for word in unread(kind) {
            for value in [1, 255, 256, 1 << 63, u64::MAX] {
                let mut record = good;
                record[*word] = value;
                assert_eq!(write(&record), expected);
            }
        }
    }
}

#[test]
fn words_of_other_kinds_are_not_looked_at() {
    for (kind, end) in [(0, OWN), (1, SHAPE_INDEX + 1), (3, CONTENT_QUADS + 1), (4, IS_VERTICAL_ALIGNMENT + 1)] {
        let mut record = [0; RECORD_WORDS];
        record[KIND] = kind;
        record[end..].fill(u64::MAX);
        assert_eq!(written(&record).0, WRITTEN);
    }
}

#[test]
fn a_read_keeps_the_words_after_its_kind() {
    let mut buffers = (vec![0; 2040], vec![0; 32767], vec![0; 510], vec![0; 510]);
    let mut lists = ReadLists { quads: &mut buffers.0, units: &mut buffers.1, lines: &mut buffers.2, frames: &mut buffers.3 };
    let (mut record, mut answer) = ([9; RECORD_WORDS], Answer::default());
    assert_eq!(calls::read_body(LITTLE, 0, &[0; 84], 8, &mut lists, &mut record, &mut answer), PANE);
    assert_eq!((&record[..OWN], &record[OWN..]), (&[0; OWN][..], &[9; RECORD_WORDS - OWN][..]));
    assert_eq!(answer, [84, 0, 84]);
    assert_eq!(calls::read_body(LITTLE, 5, &[0; 84], 8, &mut lists, &mut record, &mut answer), BAD_WORD);
}

#[test]
fn the_header_is_made_from_the_layout() {
    let check = Command::new("python3").arg(repository().join("tools/c_header.py")).arg("--check").status().unwrap();
    assert!(check.success());
}

#[test]
fn the_sentences_are_those_of_the_docs() {
    let check = Command::new("python3").arg(repository().join("tools/refusals.py")).status().unwrap();
    assert!(check.success());
}

#[test]
fn the_c_example_runs() {
    let program = Path::new(env!("CARGO_TARGET_TMPDIR")).join("example");
    let folder = std::env::var_os("BIDLOMEQA_LIB").map_or(repository().join("crates/exports/out"), PathBuf::from);
    let compiled = Command::new("cc")
        .args(["-std=c99", "-Wall", "-Wextra", "-Werror"])
        .arg(repository().join("bindings/c/example.c"))
        .arg("-L")
        .arg(folder)
        .args(["-lexports", "-o"])
        .arg(&program)
        .status()
        .unwrap();
    assert!(compiled.success());
    let output = Command::new(&program).output().unwrap();
    assert!(output.status.success());
    let expected =
        "read: 2, body ends at 96, next section at 96, reach 96\nwritten: 3, ends at 96\nat the end: 0\ncut short: 4, number 8, figures 4 96\n";
    assert_eq!(String::from_utf8(output.stdout).unwrap(), expected);
}

#[test]
fn the_caller_names_the_byte_order() {
    let mut buffers = (vec![0; 2040], vec![0; 32767], vec![0; 510], vec![0; 510]);
    let mut lists = ReadLists { quads: &mut buffers.0, units: &mut buffers.1, lines: &mut buffers.2, frames: &mut buffers.3 };
    let mut read = |order: u64, data: &[u8]| {
        let mut answer = Answer::default();
        (calls::read_section(order, data, 0, &mut lists, &mut [0; RECORD_WORDS], &mut answer), answer)
    };
    let strip = [&b"ali1\0\0\0\x60"[..], &[0; 88]].concat();
    assert_eq!(read(BIG, &strip), (PANE, [96, 96, 96]));
    assert_eq!(read(LITTLE, &strip), (REFUSED, [8, 4, 0x6000_0000]));
    assert_eq!(read(BIG, b"ali1\x08\0\0\0"), (REFUSED, [8, 4, 0x0800_0000]));
    assert_eq!(read(LITTLE, b"ali1\x08\0\0\0"), (REFUSED, [4, 8, 1]));
}

#[test]
fn another_number_is_no_byte_order() {
    for order in [2, 256, 1 << 32, u64::MAX] {
        let (mut quads, mut units, mut lines, mut frames) = (vec![7; 2040], vec![7; 32767], vec![7; 510], vec![7; 510]);
        let mut lists = ReadLists { quads: &mut quads, units: &mut units, lines: &mut lines, frames: &mut frames };
        let (mut record, mut out, mut answer) = ([9; RECORD_WORDS], [9; 100], Answer::default());
        let told = (BAD_ORDER, [order, 0, 0]);
        assert_eq!((calls::read_section(order, &[0; 84], 0, &mut lists, &mut record, &mut answer), answer), told);
        assert_eq!((calls::read_body(order, 0, &[0; 84], 8, &mut lists, &mut record, &mut answer), answer), told);
        assert_eq!((calls::write_section(order, &[0; RECORD_WORDS], NO_LISTS, &mut out, 0, &mut answer), answer), told);
        assert_eq!((calls::write_body(order, &[0; RECORD_WORDS], NO_LISTS, &mut out, 8, &mut answer), answer), told);
        assert_eq!((record, out), ([9; RECORD_WORDS], [9; 100]));
        assert_eq!((quads, units, lines, frames), (vec![7; 2040], vec![7; 32767], vec![7; 510], vec![7; 510]));
    }
}

#[test]
fn the_byte_order_is_looked_at_after_the_answer_and_before_the_record() {
    let mut lists = ReadLists { quads: &mut [], units: &mut [], lines: &mut [], frames: &mut [] };
    let mut calls = |answer: &mut [u64]| {
        [
            calls::read_section(2, &[], 0, &mut lists, &mut [], answer),
            calls::read_body(2, 5, &[], 8, &mut lists, &mut [], answer),
            calls::write_section(2, &[], NO_LISTS, &mut [], 0, answer),
            calls::write_body(2, &[], NO_LISTS, &mut [], 8, answer),
        ]
    };
    assert_eq!(calls(&mut [9; ANSWER_WORDS]), [BAD_ORDER; 4]);
    assert_eq!(calls(&mut [9; ANSWER_WORDS - 1]), [SHORT_ANSWER; 4]);
}
