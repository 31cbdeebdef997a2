//! How many numbers of each list a record counts: the read filled so many, and the write takes so many.
use bidlomeqa::calls::{self, Answer, Filled, ReadLists, WriteLists};
use bidlomeqa::layout::*;
use bidlomeqa::{write_strip, ByteOrder, Own, PicturePane, Quad, Record, TextBoxPane, WindowFrame, WindowPane};

// A record of the kind with these words, and zeros else.
fn record(kind: u64, words: &[(usize, u64)]) -> [u64; RECORD_WORDS] {
    let mut record = [0; RECORD_WORDS];
    record[KIND] = kind;
    words.iter().for_each(|(word, value)| record[*word] = *value);
    record
}

fn filled(kind: u64, words: &[(usize, u64)]) -> (u64, Filled) {
    let mut filled = [7; FILLED_WORDS];
    (calls::filled(&record(kind, words), &mut filled), filled)
}

#[test]
fn quads_and_frames_are_counted_up_to_255() {
    for count in [0, 1, 254, 255] {
        assert_eq!(filled(1, &[(PICTURE_QUADS, count)]), (FILLED, [8 * count, 0, 0, 0]));
        assert_eq!(filled(3, &[(CONTENT_QUADS, count), (FRAMES_COUNT, 255 - count)]), (FILLED, [8 * count, 0, 0, 2 * (255 - count)]));
    }
}

#[test]
fn units_are_half_the_text_length_rounded_down() {
    for (length, units) in [(0, 0), (1, 0), (2, 1), (3, 1), (65534, 32767), (65535, 32767)] {
        assert_eq!(filled(2, &[(TEXT_PRESENT, 1), (TEXT_LENGTH, length)]), (FILLED, [0, units, 0, 0]));
    }
}

#[test]
fn an_absent_text_or_table_counts_none() {
    assert_eq!(filled(2, &[(TEXT_LENGTH, 65535), (LINES_COUNT, 255)]), (FILLED, [0; 4]));
    assert_eq!(filled(2, &[(TEXT_LENGTH, 9), (LINES_PRESENT, 1), (LINES_COUNT, 255)]), (FILLED, [0, 0, 510, 0]));
    assert_eq!(filled(2, &[(TEXT_LENGTH, 9), (TEXT_PRESENT, 1), (LINES_COUNT, 255)]), (FILLED, [0, 4, 0, 0]));
}

#[test]
fn a_kind_without_lists_counts_none_whatever_its_other_words_hold() {
    for kind in [0, 4] {
        let mut words = record(kind, &[]);
        words[OWN..].fill(u64::MAX);
        let mut filled = [7; FILLED_WORDS + 1];
        assert_eq!((calls::filled(&words, &mut filled), filled), (FILLED, [0, 0, 0, 0, 7]));
    }
}

#[test]
fn a_short_record_or_answer_is_told() {
    let mut filled = [7; FILLED_WORDS];
    assert_eq!((calls::filled(&[9; RECORD_WORDS - 1], &mut filled), filled), (SHORT_RECORD, [RECORD_WORDS as u64, 0, 0, 7]));
    let mut short = [7; FILLED_WORDS - 1];
    assert_eq!((calls::filled(&[9; RECORD_WORDS - 1], &mut short), short), (SHORT_ANSWER, [7; 3]));
}

#[test]
fn a_word_that_counts_is_below_its_bound() {
    let text = [(TEXT_LENGTH, 65536), (TEXT_PRESENT, 2), (LINES_PRESENT, 2), (LINES_COUNT, 256)];
    let kinds: [(u64, &[(usize, u64)]); 5] =
        [(0, &[]), (1, &[(PICTURE_QUADS, 256)]), (2, &text), (3, &[(FRAMES_COUNT, 256), (CONTENT_QUADS, 256)]), (4, &[])];
    for (kind, bounds) in kinds {
        assert_eq!(filled(kind, &[(KIND, 5)]), (BAD_WORD, [KIND as u64, 0, 0, 7]));
        for (word, bound) in bounds {
            for value in [*bound, 1 << 63, u64::MAX] {
                assert_eq!(filled(kind, &[(*word, value)]), (BAD_WORD, [*word as u64, 0, 0, 7]));
            }
            assert_eq!(filled(kind, &[(*word, bound - 1)]).0, FILLED);
        }
    }
}

#[test]
fn no_other_word_is_looked_at() {
    let counts: [(u64, &[usize]); 3] =
        [(1, &[KIND, PICTURE_QUADS]), (2, &[KIND, TEXT_LENGTH, TEXT_PRESENT, LINES_PRESENT, LINES_COUNT]), (3, &[KIND, FRAMES_COUNT, CONTENT_QUADS])];
    for (kind, counting) in counts {
        let mut words = [u64::MAX; RECORD_WORDS];
        counting.iter().for_each(|word| words[*word] = 1);
        words[KIND] = kind;
        let expected = [[8, 0, 0, 0], [0, 0, 2, 0], [8, 0, 0, 2]][kind as usize - 1];
        let mut filled = Filled::default();
        assert_eq!((calls::filled(&words, &mut filled), filled), (FILLED, expected));
    }
}

// Reads the one section of the strip with full lists, and writes it with lists of the lengths that `lengths` makes of the counts.
fn copied(strip: &[u8], lengths: impl Fn([usize; 4]) -> [usize; 4]) -> (u64, Answer, Vec<u8>) {
    let (mut quads, mut units, mut lines, mut frames) = (vec![7; 2040], vec![7; 32767], vec![7; 510], vec![7; 510]);
    let mut lists = ReadLists { quads: &mut quads, units: &mut units, lines: &mut lines, frames: &mut frames };
    let (mut words, mut answer, mut filled) = ([0; RECORD_WORDS], Answer::default(), Filled::default());
    assert_eq!(calls::read_section(LITTLE, strip, 0, &mut lists, &mut words, &mut answer), PANE);
    assert_eq!(calls::filled(&words, &mut filled), FILLED);
    let [q, u, l, f] = lengths(filled.map(|n| n as usize));
    let lists = WriteLists { quads: &quads[..q], units: &units[..u], lines: &lines[..l], frames: &frames[..f], label: &[] };
    let mut out = vec![0; strip.len()];
    let code = calls::write_section(LITTLE, &words, lists, &mut out, 0, &mut answer);
    (code, answer, out)
}

// Records at the limits: 255 quads, 255 frames, a text of odd length, an absent text with a length, 255 lines.
fn limits() -> Vec<Record> {
    let mut window = WindowPane { frames: vec![WindowFrame::default(); 255], ..Default::default() };
    window.content.quads = vec![Quad::default(); 255];
    let mut texts = [TextBoxPane::default(), TextBoxPane::default(), TextBoxPane::default()];
    texts[0].fixed.text_length = 65535;
    texts[0].text = Some(vec![0x61; 32767]);
    texts[1].fixed.text_length = 9;
    texts[2].fixed.text_flags.is_line_transform = true;
    texts[2].line_transforms = Some(vec![Default::default(); 255]);
    let picture = PicturePane { quads: vec![Quad::default(); 255], ..Default::default() };
    let owns = [Own::Pic1(picture), Own::Wnd1(window)].into_iter().chain(texts.map(Own::Txt1)).chain([Own::Pan1, Own::Ali1(Default::default())]);
    owns.map(|own| Record { own, ..Default::default() }).collect()
}

#[test]
fn what_was_read_is_written_back_with_lists_of_these_lengths() {
    for record in limits() {
        let strip = write_strip(ByteOrder::Little, &[record]).unwrap();
        let (code, answer, out) = copied(&strip, |counts| counts);
        assert_eq!((code, answer, out), (WRITTEN, [strip.len() as u64, 0, 0], strip));
    }
}

#[test]
fn the_full_lists_of_a_read_are_not_what_it_filled() {
    let full = |own| {
        let strip = write_strip(ByteOrder::Little, &[Record { own, ..Default::default() }]).unwrap();
        let (code, answer, _) = copied(&strip, |_| [2040, 32767, 510, 510]);
        (code, answer)
    };
    let mut text = TextBoxPane { text: Some(vec![0x61]), ..Default::default() };
    text.fixed.text_length = 3;
    assert_eq!(full(Own::Txt1(text)), (REFUSED, [13, 32767, 3]));
    // 2,040 numbers are 255 quads, which a strip with none has no room for.
    assert_eq!(full(Own::Pic1(PicturePane::default())), (REFUSED, [16, 104 + 8160, 104]));
}
