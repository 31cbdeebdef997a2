//! A pane where a read left it: nothing is copied until it is asked for.
use crate::flags::WindowFlags;
use crate::layout::*;
use crate::record::*;
use crate::words::Words;

/// A pane in a buffer's words and lists and in the strip that was read.
#[derive(Debug, Clone, Copy)]
pub struct View<'a> {
    pub(crate) words: &'a [u64; RECORD_WORDS],
    pub(crate) quads: &'a [u32],
    pub(crate) units: &'a [u16],
    pub(crate) lines: &'a [u32],
    pub(crate) frames: &'a [u16],
    pub(crate) strip: &'a [u8],
    pub(crate) reach: usize,
}

impl<'a> View<'a> {
    /// The words of the record, as `layout` describes them.
    pub fn words(&self) -> &'a [u64; RECORD_WORDS] {
        self.words
    }

    /// How far the read looked: the first place of the buffer past all bytes that it read. It is never before the place after the body, and never past the
    /// buffer's end. Of a section read it is never past the section's end, the next section's place: a pane that looks further is refused
    /// ([`Refusal::PastSection`](crate::Refusal::PastSection)), so the bytes of its section decide a pane. A body read knows of no section.
    ///
    /// It is for a caller that keeps only part of a page in memory:
    ///
    /// - All bytes that the read looked at lie from the section's place (of a body call: from 8 before its place) up to the reach. Another buffer that is no
    ///   shorter and has the same bytes there gives the same answer, record, lists and label, unless it is too long for a call (refusal 1).
    /// - A buffer that is cut below the reach is refused. The one exception is a section read of a buffer that is cut right at the place, which gives [`Section::End`](crate::Section::End).
    /// - A buffer that is cut right at the reach may still be refused: the section's size must not pass its end, and nor must a place that is sought with
    ///   nothing to read there, that of a text with no units or of a table with no frames, which may lie past the section too. So hand in as many bytes as the
    ///   page has. Those that do not lie in that part may have any value.
    pub fn reach(&self) -> usize {
        self.reach
    }

    pub fn kind(&self) -> Kind {
        Kind::take(&self.words[KIND..])
    }

    /// The base that every pane has.
    pub fn base(&self) -> Pane {
        Pane::take(&self.words[PANE_FLAGS..])
    }

    /// The bits of the quads' floats, eight a quad; none where the kind has no quads.
    pub fn quads(&self) -> &'a [u32] {
        self.quads
    }

    /// Material and flip of each frame; none where the kind has no frames.
    pub fn frames(&self) -> &'a [u16] {
        self.frames
    }

    fn present(&self, word: usize) -> bool {
        self.kind() == Kind::Txt1 && self.words[word] != 0
    }

    /// The units of a text box's text.
    pub fn text(&self) -> Option<&'a [u16]> {
        self.present(TEXT_PRESENT).then_some(self.units)
    }

    /// The bits of offset and width of each line of a text box's table.
    pub fn lines(&self) -> Option<&'a [u32]> {
        self.present(LINES_PRESENT).then_some(self.lines)
    }

    /// A text box's label: a part of the strip, in well-formed UTF-8.
    pub fn label(&self) -> Option<&'a [u8]> {
        let place = self.words[LABEL_PLACE] as usize;
        self.present(LABEL_PRESENT).then(|| &self.strip[place..place + self.words[LABEL_LENGTH] as usize])
    }

    // What a kind that has it keeps in words from there on.
    fn part<T: Words>(&self, pairs: &[(Kind, usize)]) -> Option<T> {
        let kind = self.kind();
        pairs.iter().find(|(k, _)| *k == kind).map(|(_, word)| T::take(&self.words[*word..]))
    }

    /// The colours of the corners of a picture, or of a window's content.
    pub fn vertex_colors(&self) -> Option<[Color4u8; 4]> {
        self.part(&[(Kind::Pic1, PICTURE_COLORS), (Kind::Wnd1, CONTENT_COLORS)])
    }

    /// The material of a picture, or of a window's content.
    pub fn material_index(&self) -> Option<u16> {
        self.part(&[(Kind::Pic1, PICTURE_MATERIAL), (Kind::Wnd1, CONTENT_MATERIAL)])
    }

    /// The shape index of a picture that has one.
    pub fn shape_info_array_index(&self) -> Option<u32> {
        self.part(&[(Kind::Pic1, SHAPE_INDEX)]).filter(|_| self.words[SHAPE_PRESENT] != 0)
    }

    /// How far a window reaches beyond its content.
    pub fn inflation(&self) -> Option<Sides> {
        self.part(&[(Kind::Wnd1, INFLATION)])
    }

    /// How wide a window's frame is.
    pub fn frame_size(&self) -> Option<Sides> {
        self.part(&[(Kind::Wnd1, FRAME_SIZE)])
    }

    pub fn window_flags(&self) -> Option<WindowFlags> {
        self.part(&[(Kind::Wnd1, WINDOW_FLAGS)])
    }

    /// The fixed fields of a text box.
    pub fn text_box(&self) -> Option<TextBoxFixed> {
        self.part(&[(Kind::Txt1, OWN)])
    }

    /// The fields of an alignment pane.
    pub fn alignment(&self) -> Option<AlignmentPane> {
        self.part(&[(Kind::Ali1, OWN)])
    }

    /// The pane with lists of its own.
    pub fn record(&self) -> Record {
        let own = match self.kind() {
            Kind::Pan1 => Own::Pan1,
            Kind::Pic1 => Own::Pic1(self.picture()),
            Kind::Txt1 => Own::Txt1(self.whole_text_box()),
            Kind::Wnd1 => Own::Wnd1(self.window()),
            Kind::Ali1 => Own::Ali1(AlignmentPane::take(&self.words[OWN..])),
        };
        Record { base: self.base(), own }
    }

    fn quad_list(&self) -> Vec<Quad> {
        listed(self.quads(), 8)
    }

    fn picture(&self) -> PicturePane {
        PicturePane {
            vertex_colors: Words::take(&self.words[PICTURE_COLORS..]),
            material_index: Words::take(&self.words[PICTURE_MATERIAL..]),
            shape_info_array_index: (self.words[SHAPE_PRESENT] != 0).then(|| Words::take(&self.words[SHAPE_INDEX..])),
            quads: self.quad_list(),
        }
    }

    fn whole_text_box(&self) -> TextBoxPane {
        TextBoxPane {
            fixed: TextBoxFixed::take(&self.words[OWN..]),
            text: self.text().map(<[u16]>::to_vec),
            label: self.label().map(|l| String::from_utf8(l.to_vec()).expect("a label that was read is well-formed")),
            line_transforms: self.lines().map(|lines| listed(lines, 2)),
        }
    }

    fn window(&self) -> WindowPane {
        WindowPane {
            inflation: Words::take(&self.words[INFLATION..]),
            frame_size: Words::take(&self.words[FRAME_SIZE..]),
            flag: Words::take(&self.words[WINDOW_FLAGS..]),
            content: WindowContent {
                vertex_colors: Words::take(&self.words[CONTENT_COLORS..]),
                material_index: Words::take(&self.words[CONTENT_MATERIAL..]),
                quads: self.quad_list(),
            },
            frames: listed(self.frames(), 2),
        }
    }
}

// The entries of a flat list, each of `width` numbers.
fn listed<T: Words, N: Copy + Into<u64>>(numbers: &[N], width: usize) -> Vec<T> {
    let mut words = [0; 8];
    let entry = |part: &[N]| {
        for (word, number) in words.iter_mut().zip(part) {
            *word = (*number).into();
        }
        T::take(&words)
    };
    numbers.chunks_exact(width).map(entry).collect()
}
