//! What the calls lend to the library, kept from call to call.
use crate::calls::{self, Answer, Filled, ReadLists, WriteLists};
use crate::layout::*;
use crate::record::*;
use crate::refusal::Refusal;
use crate::view::View;
use crate::words::Words;

/// In which order the bytes of a number of two or four bytes stand. Letters, names, labels, colours and single bytes have none.
///
/// The order is never guessed from the bytes: a .bflyt file tells it by the mark in its header, which is no part of a strip (bytes FF FE little, FE FF big).
#[derive(Debug, Clone, Copy, PartialEq, Eq, Hash)]
pub enum ByteOrder {
    /// The lowest byte first.
    Little,
    /// The highest byte first.
    Big,
}

impl ByteOrder {
    fn number(self) -> u64 {
        match self {
            Self::Little => LITTLE,
            Self::Big => BIG,
        }
    }
}

/// What a section read gives.
#[derive(Debug, Clone, Copy)]
pub enum Section<'a> {
    /// No section is left.
    End,
    /// A section of another kind; the next one's place.
    Passed { next: usize },
    /// A pane; the place after its body, the next section's place, and how far the read looked ([`View::reach`]), which is never past the next section's place.
    Pane { view: View<'a>, end: usize, next: usize, reach: usize },
}

/// What a body read gives: the pane, the place after it, and how far the read looked ([`View::reach`]), which may be anywhere up to the buffer's end.
#[derive(Debug, Clone, Copy)]
pub struct Body<'a> {
    pub view: View<'a>,
    pub end: usize,
    pub reach: usize,
}

/// A caption: a part of the strip, or of what was lent.
#[derive(Debug, Clone, Copy, PartialEq, Eq)]
pub enum Caption<'a> {
    Strip(&'a [u8]),
    Lent(&'a [u8]),
}

/// Full lists, a record's words, and room for the lists of a write.
pub struct Buffer {
    words: [u64; RECORD_WORDS],
    quads: Vec<u32>,
    units: Vec<u16>,
    lines: Vec<u32>,
    frames: Vec<u16>,
    written: Written,
}

#[derive(Default)]
struct Written {
    quads: Vec<u32>,
    lines: Vec<u32>,
    frames: Vec<u16>,
}

impl Default for Buffer {
    fn default() -> Self {
        Self::new()
    }
}

fn disagree(code: u64, answer: &[u64]) -> ! {
    panic!("the static library answered {code} {answer:?}: it and this crate disagree about the layout")
}

fn refusal(answer: Answer) -> Refusal {
    let [number, a, b] = answer;
    Refusal::of(number, a, b).unwrap_or_else(|| disagree(REFUSED, &answer))
}

impl Buffer {
    /// A buffer whose lists are as long as any read needs.
    pub fn new() -> Self {
        Self {
            words: [0; RECORD_WORDS],
            quads: vec![0; 2040],
            units: vec![0; 32767],
            lines: vec![0; 510],
            frames: vec![0; 510],
            written: Written::default(),
        }
    }

    // The pane that was read, with as many numbers of each list as the library says that the read filled.
    fn view<'a>(&'a self, strip: &'a [u8], reach: usize) -> View<'a> {
        let mut filled = Filled::default();
        let code = calls::filled(&self.words, &mut filled);
        if code != FILLED {
            disagree(code, &filled);
        }
        let [quads, units, lines, frames] = filled.map(|numbers| numbers as usize);
        View {
            words: &self.words,
            quads: &self.quads[..quads],
            units: &self.units[..units],
            lines: &self.lines[..lines],
            frames: &self.frames[..frames],
            strip,
            reach,
        }
    }

    /// Reads the section at `place` of the strip, whose numbers stand in the byte order. A pane that reads bytes past its section is refused
    /// ([`Refusal::PastSection`]), after all other refusals of a read.
    pub fn read_section<'a>(&'a mut self, order: ByteOrder, strip: &'a [u8], place: usize) -> Result<Section<'a>, Refusal> {
        let mut answer = Answer::default();
        let mut lists = ReadLists { quads: &mut self.quads, units: &mut self.units, lines: &mut self.lines, frames: &mut self.frames };
        match calls::read_section(order.number(), strip, place, &mut lists, &mut self.words, &mut answer) {
            END => Ok(Section::End),
            PASSED => Ok(Section::Passed { next: answer[0] as usize }),
            PANE => {
                let [end, next, reach] = answer.map(|word| word as usize);
                Ok(Section::Pane { view: self.view(strip, reach), end, next, reach })
            }
            REFUSED => Err(refusal(answer)),
            code => disagree(code, &answer),
        }
    }

    /// Reads a body of the kind at `place` of the data, whose numbers stand in the byte order. There is no section that it must keep to: its parts may lie
    /// anywhere in the data.
    pub fn read_body<'a>(&'a mut self, order: ByteOrder, kind: Kind, data: &'a [u8], place: usize) -> Result<Body<'a>, Refusal> {
        let mut answer = Answer::default();
        let mut lists = ReadLists { quads: &mut self.quads, units: &mut self.units, lines: &mut self.lines, frames: &mut self.frames };
        match calls::read_body(order.number(), kind as u64, data, place, &mut lists, &mut self.words, &mut answer) {
            PANE => {
                let [end, _, reach] = answer.map(|word| word as usize);
                Ok(Body { view: self.view(data, reach), end, reach })
            }
            REFUSED => Err(refusal(answer)),
            code => disagree(code, &answer),
        }
    }

    /// Writes the record as a section at `place`, its numbers in the byte order, and answers where it ends.
    pub fn write_section(&mut self, order: ByteOrder, record: &Record, out: &mut [u8], place: usize) -> Result<usize, Refusal> {
        self.put(record);
        let mut answer = Answer::default();
        let code = calls::write_section(order.number(), &self.words, self.lists(record), out, place, &mut answer);
        written(code, answer)
    }

    /// Writes the record's body at `place`, its numbers in the byte order, and answers where it ends.
    pub fn write_body(&mut self, order: ByteOrder, record: &Record, out: &mut [u8], place: usize) -> Result<usize, Refusal> {
        self.put(record);
        let mut answer = Answer::default();
        let code = calls::write_body(order.number(), &self.words, self.lists(record), out, place, &mut answer);
        written(code, answer)
    }

    fn lists<'a>(&'a self, record: &'a Record) -> WriteLists<'a> {
        let (units, label) = match &record.own {
            Own::Txt1(own) => (own.text.as_deref(), own.label.as_deref()),
            _ => (None, None),
        };
        WriteLists {
            quads: &self.written.quads,
            units: units.unwrap_or(&[]),
            lines: &self.written.lines,
            frames: &self.written.frames,
            label: label.unwrap_or("").as_bytes(),
        }
    }

    fn put(&mut self, record: &Record) {
        self.words[KIND] = record.own.kind() as u64;
        record.base.put(&mut self.words[PANE_FLAGS..]);
        match &record.own {
            Own::Pan1 => {}
            Own::Pic1(own) => self.put_picture(own),
            Own::Txt1(own) => self.put_text_box(own),
            Own::Wnd1(own) => self.put_window(own),
            Own::Ali1(own) => own.put(&mut self.words[OWN..]),
        }
    }

    fn put_picture(&mut self, own: &PicturePane) {
        let words = &mut self.words;
        own.vertex_colors.put(&mut words[PICTURE_COLORS..]);
        own.material_index.put(&mut words[PICTURE_MATERIAL..]);
        words[PICTURE_QUADS] = 0;
        own.shape_info_array_index.is_some().put(&mut words[SHAPE_PRESENT..]);
        own.shape_info_array_index.unwrap_or(0).put(&mut words[SHAPE_INDEX..]);
        flat(&own.quads, &mut self.written.quads, |word| word as u32);
    }

    fn put_text_box(&mut self, own: &TextBoxPane) {
        let words = &mut self.words;
        own.fixed.put(&mut words[OWN..]);
        words[TEXT_PRESENT] = u64::from(own.text.is_some());
        words[LABEL_PRESENT] = u64::from(own.label.is_some());
        words[LABEL_PLACE] = 0;
        words[LABEL_LENGTH] = 0;
        words[LINES_PRESENT] = u64::from(own.line_transforms.is_some());
        words[LINES_COUNT] = 0;
        flat(own.line_transforms.as_deref().unwrap_or(&[]), &mut self.written.lines, |word| word as u32);
    }

    fn put_window(&mut self, own: &WindowPane) {
        let words = &mut self.words;
        own.inflation.put(&mut words[INFLATION..]);
        own.frame_size.put(&mut words[FRAME_SIZE..]);
        own.flag.put(&mut words[WINDOW_FLAGS..]);
        words[FRAMES_COUNT] = 0;
        own.content.vertex_colors.put(&mut words[CONTENT_COLORS..]);
        own.content.material_index.put(&mut words[CONTENT_MATERIAL..]);
        words[CONTENT_QUADS] = 0;
        flat(&own.content.quads, &mut self.written.quads, |word| word as u32);
        flat(&own.frames, &mut self.written.frames, |word| word as u16);
    }
}

fn written(code: u64, answer: Answer) -> Result<usize, Refusal> {
    match code {
        WRITTEN => Ok(answer[0] as usize),
        REFUSED => Err(refusal(answer)),
        code => disagree(code, &answer),
    }
}

// The numbers of the entries, one after another.
fn flat<T: Words, N>(entries: &[T], numbers: &mut Vec<N>, number: impl Fn(u64) -> N) {
    let mut words = [0; 8];
    numbers.clear();
    for entry in entries {
        entry.put(&mut words);
        numbers.extend(words[..T::COUNT].iter().map(|word| number(*word)));
    }
}

impl View<'_> {
    /// The label if there is one, otherwise the lent caption.
    pub fn caption<'b>(&self, strip: &'b [u8], lent: &'b [u8]) -> Caption<'b> {
        let mut answer = Answer::default();
        let code = calls::caption(strip, self.words(), lent, &mut answer);
        let [which, place, length] = answer;
        match (code, which) {
            (PART, 0) => Caption::Strip(&strip[place as usize..][..length as usize]),
            (PART, 1) => Caption::Lent(&lent[..length as usize]),
            _ => disagree(code, &answer),
        }
    }
}
