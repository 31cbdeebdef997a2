//! A pane with every field typed and with lists of its own. Two records are equal when their fields are, floats by their bits.
use crate::flags::*;
use crate::words::{cases, fields, Words};

cases!(
    /// The kinds of panes, in the order of their numbers.
    Kind { Pan1, Pic1, Txt1, Wnd1, Ali1 }
);

impl Kind {
    /// The letters of the kind's sections.
    pub fn letters(self) -> &'static [u8; 4] {
        [b"pan1", b"pic1", b"txt1", b"wnd1", b"ali1"][self as usize]
    }
}

fields!(
    /// A float by its 32 bits, which come back the same whatever they are.
    Binary32 { bits: u32 }
);

impl Binary32 {
    /// The float that the bits are.
    pub fn value(self) -> f32 {
        f32::from_bits(self.bits)
    }
}

impl From<f32> for Binary32 {
    fn from(value: f32) -> Self {
        Self { bits: value.to_bits() }
    }
}

fields!(Vector2f { x: Binary32, y: Binary32 });

fields!(Vector3f { x: Binary32, y: Binary32, z: Binary32 });

fields!(Color4u8 { r: u8, g: u8, b: u8, a: u8 });

fields!(
    /// Four corner points of a texture.
    Quad { top_left: Vector2f, top_right: Vector2f, bottom_left: Vector2f, bottom_right: Vector2f }
);

fields!(Sides { left: i16, right: i16, top: i16, bottom: i16 });

/// A string of at most N bytes, as it stands in a pane.
#[derive(Clone, Copy, PartialEq, Eq)]
pub struct FixedString<const N: usize> {
    bytes: [u8; N],
    count: u8,
}

impl<const N: usize> FixedString<N> {
    /// The string, or none where it has more than N bytes.
    pub fn new(text: &[u8]) -> Option<Self> {
        let mut bytes = [0; N];
        bytes.get_mut(..text.len())?.copy_from_slice(text);
        Some(Self { bytes, count: text.len() as u8 })
    }

    pub fn as_bytes(&self) -> &[u8] {
        &self.bytes[..usize::from(self.count)]
    }

    /// The string as text: what was read is always well-formed.
    pub fn to_str(&self) -> Result<&str, std::str::Utf8Error> {
        std::str::from_utf8(self.as_bytes())
    }
}

impl<const N: usize> Default for FixedString<N> {
    fn default() -> Self {
        Self { bytes: [0; N], count: 0 }
    }
}

impl<const N: usize> std::fmt::Debug for FixedString<N> {
    fn fmt(&self, f: &mut std::fmt::Formatter) -> std::fmt::Result {
        write!(f, "{:?}", String::from_utf8_lossy(self.as_bytes()))
    }
}

// The count, then the bytes with zeros after it.
impl<const N: usize> Words for FixedString<N> {
    const COUNT: usize = N + 1;

    #[inline]
    fn take(words: &[u64]) -> Self {
        Self { count: (words[0] as usize).min(N) as u8, bytes: <[u8; N]>::take(&words[1..]) }
    }

    #[inline]
    fn put(&self, words: &mut [u64]) {
        words[0] = u64::from(self.count);
        self.bytes.put(&mut words[1..]);
    }
}

fields!(
    /// The base that every pane has.
    Pane {
        pane_flags: PaneFlags,
        position: BflytPosition,
        alpha: u8,
        flag_ex: PaneFlagsEx,
        pane_name: FixedString<24>,
        user_name: FixedString<8>,
        translation: Vector3f,
        rotation: Vector3f,
        scale: Vector2f,
        size: Vector2f,
    }
);

/// A pane: the base, and what its kind adds.
#[derive(Debug, Clone, Default, PartialEq, Eq)]
pub struct Record {
    pub base: Pane,
    pub own: Own,
}

/// What a kind adds to the base.
#[derive(Debug, Clone, Default, PartialEq, Eq)]
pub enum Own {
    #[default]
    Pan1,
    Pic1(PicturePane),
    Txt1(TextBoxPane),
    Wnd1(WindowPane),
    Ali1(AlignmentPane),
}

impl Own {
    pub fn kind(&self) -> Kind {
        match self {
            Self::Pan1 => Kind::Pan1,
            Self::Pic1(_) => Kind::Pic1,
            Self::Txt1(_) => Kind::Txt1,
            Self::Wnd1(_) => Kind::Wnd1,
            Self::Ali1(_) => Kind::Ali1,
        }
    }
}

/// A picture. Colours by corner: top left, top right, bottom left, bottom right.
#[derive(Debug, Clone, Default, PartialEq, Eq)]
pub struct PicturePane {
    pub vertex_colors: [Color4u8; 4],
    pub material_index: u16,
    pub shape_info_array_index: Option<u32>,
    pub quads: Vec<Quad>,
}

/// The font's size, or its scale.
#[derive(Debug, Clone, Copy, PartialEq, Eq)]
pub enum FontMeasure {
    Size(Vector2f),
    Scale(Vector2f),
}

impl Default for FontMeasure {
    fn default() -> Self {
        Self::Size(Vector2f::default())
    }
}

impl Words for FontMeasure {
    const COUNT: usize = 3;

    #[inline]
    fn take(words: &[u64]) -> Self {
        let measure = Vector2f::take(&words[1..]);
        if words[0] == 0 {
            Self::Size(measure)
        } else {
            Self::Scale(measure)
        }
    }

    #[inline]
    fn put(&self, words: &mut [u64]) {
        let (kind, measure) = match self {
            Self::Size(measure) => (0, measure),
            Self::Scale(measure) => (1, measure),
        };
        words[0] = kind;
        measure.put(&mut words[1..]);
    }
}

fields!(LineTransform { line_offset: Binary32, line_width: Binary32 });

fields!(
    /// The fields of a text box that stand in its fixed bytes.
    TextBoxFixed {
        text_buffer_size: u16,
        text_length: u16,
        material_index: u16,
        font_index: u16,
        text_origin: TextPosition,
        text_alignment: TextAlignment,
        text_flags: TextPaneFlags,
        font_measure: FontMeasure,
        italic_tilt: Binary32,
        font_top_color: Color4u8,
        font_bottom_color: Color4u8,
        character_space: Binary32,
        line_space: Binary32,
        shadow_translation: Vector2f,
        shadow_size: Vector2f,
        shadow_top_color: Color4u8,
        shadow_bottom_color: Color4u8,
        shadow_italic_tilt: Binary32,
    }
);

/// A text box. A text has `fixed.text_length / 2` units; a line table stands only with the flag `is_line_transform`.
#[derive(Debug, Clone, Default, PartialEq, Eq)]
pub struct TextBoxPane {
    pub fixed: TextBoxFixed,
    pub text: Option<Vec<u16>>,
    pub label: Option<String>,
    pub line_transforms: Option<Vec<LineTransform>>,
}

fields!(WindowFrame { material_index: u16, texture_flip_mode: TextureFlip });

#[derive(Debug, Clone, Default, PartialEq, Eq)]
pub struct WindowContent {
    pub vertex_colors: [Color4u8; 4],
    pub material_index: u16,
    pub quads: Vec<Quad>,
}

#[derive(Debug, Clone, Default, PartialEq, Eq)]
pub struct WindowPane {
    pub inflation: Sides,
    pub frame_size: Sides,
    pub flag: WindowFlags,
    pub content: WindowContent,
    pub frames: Vec<WindowFrame>,
}

fields!(AlignmentPane { direction: u32, default_margin: Binary32, is_align_last_pane: bool, is_vertical_alignment: bool });
