//! nnbfl's panes to and from the flat layout. This is the comparison's own account of the layout: it shares no code with the crate's typed records.
use crate::whole::*;
use nnbfl::bflyt::flags::*;
use nnbfl::bflyt::pane::*;
use nnbfl::core::{Cursor, FormatError, ReadWriteable, Writer};
use nnbfl::ui2d::types::{Color4u8, Vector2f, Vector3f};

/// A pane of nnbfl.
pub enum AnyPane {
    Pan1(Pane),
    Pic1(PicturePane),
    Txt1(TextBoxPane),
    Wnd1(WindowPane),
    Ali1(AlignmentPane),
}

// One number after another into a record's words.
struct Out<'a> {
    words: &'a mut [u64],
    at: usize,
}

impl Out<'_> {
    fn put(&mut self, n: u64) {
        self.words[self.at] = n;
        self.at += 1;
    }

    fn bools(&mut self, flags: &[bool]) {
        for flag in flags {
            self.put(u64::from(*flag));
        }
    }

    fn float(&mut self, f: f32) {
        self.put(u64::from(f.to_bits()));
    }

    fn vector2(&mut self, v: &Vector2f) {
        self.float(v.x);
        self.float(v.y);
    }

    fn vector3(&mut self, v: &Vector3f) {
        self.float(v.x);
        self.float(v.y);
        self.float(v.z);
    }

    fn color(&mut self, c: &Color4u8) {
        for channel in [c.r, c.g, c.b, c.a] {
            self.put(u64::from(channel));
        }
    }

    fn name(&mut self, name: &str, width: usize) {
        assert!(name.len() <= width);
        self.put(name.len() as u64);
        for i in 0..width {
            self.put(name.as_bytes().get(i).map_or(0, |b| u64::from(*b)));
        }
    }

    fn base(&mut self, p: &Pane) {
        let f = &p.pane_flags;
        self.bools(&[
            f.is_visible,
            f.influenced_alpha,
            f.location_adjust,
            f.user_allocated,
            f.is_global_matrix_dirty,
            f.is_srt_matrix_user,
            f.is_global_matrix_user,
            f.is_constant_buffer_ready,
        ]);
        self.put(p.position.position_x as u64);
        self.put(p.position.position_y as u64);
        self.put(p.position.parent_relative_position_x as u64);
        self.put(p.position.parent_relative_position_y as u64);
        self.put(u64::from(p.alpha));
        let e = &p.flag_ex;
        self.bools(&[e.is_no_scale_by_parts, e.is_scale_size_by_parts_root, e.is_ext_user_data]);
        self.put(u64::from(e.reserve0));
        self.name(&p.pane_name, 24);
        self.name(&p.user_name, 8);
        self.vector3(&p.translation);
        self.vector3(&p.rotation);
        self.vector2(&p.scale);
        self.vector2(&p.size);
    }

    fn text_flags(&mut self, f: &TextPaneFlags) {
        self.bools(&[
            f.is_enable_shadow,
            f.is_limit_glyph_count_to_length,
            f.is_invisible_border,
            f.is_double_border,
            f.is_per_character_transform,
            f.is_enable_center_ceiling,
            f.is_line_transform,
            f.is_default_tag_processor,
            f.is_per_character_transform_split_by_char_width,
            f.is_mix_shadow_alpha,
            f.is_reverse,
            f.is_per_character_transform_origin_to_center,
            f.is_per_character_transform_fix_space,
            f.is_per_character_transform_split_insert_space,
        ]);
        self.bools(&[f.is_keeping_font_scale]);
    }

    fn picture(&mut self, p: &PicturePane) {
        self.color(&p.top_left_vertex_color);
        self.color(&p.top_right_vertex_color);
        self.color(&p.bottom_left_vertex_color);
        self.color(&p.bottom_right_vertex_color);
        self.put(u64::from(p.material_index));
        self.put(p.texture_uvs.len() as u64);
        self.bools(&[p.shape_info_array_index.is_some()]);
        assert_eq!(p.is_shape, p.shape_info_array_index.is_some());
        self.put(u64::from(p.shape_info_array_index.unwrap_or(0)));
    }

    fn text_box(&mut self, t: &TextBoxPane, label_place: usize) {
        for n in [t.text_buffer_size, t.text_length, t.material_index, t.font_index] {
            self.put(u64::from(n));
        }
        self.put(t.text_origin.horizontal as u64);
        self.put(t.text_origin.vertical as u64);
        self.put(t.text_alignment as u64);
        self.text_flags(&t.text_flags);
        self.vector2(&t.font_size);
        self.float(t.italic_tilt);
        self.color(&t.font_top_color);
        self.color(&t.font_bottom_color);
        self.float(t.character_space);
        self.float(t.line_space);
        self.vector2(&t.shadow_translation);
        self.vector2(&t.shadow_size);
        self.color(&t.shadow_top_color);
        self.color(&t.shadow_bottom_color);
        self.float(t.shadow_italic_tilt);
        self.bools(&[t.text.is_some(), t.label.is_some()]);
        self.put(if t.label.is_some() { label_place as u64 } else { 0 });
        self.put(t.label.as_ref().map_or(0, |l| l.len() as u64));
        self.bools(&[t.line_transforms.is_some()]);
        self.put(t.line_transforms.as_ref().map_or(0, |t| t.entries.len() as u64));
    }

    fn window(&mut self, p: &WindowPane) {
        for side in [p.inflation_left, p.inflation_right, p.inflation_top, p.inflation_bottom] {
            self.put(u64::from(side as u16));
        }
        for side in [p.frame_size_left, p.frame_size_right, p.frame_size_top, p.frame_size_bottom] {
            self.put(u64::from(side as u16));
        }
        self.bools(&[p.flag.use_left_corner_material, p.flag.use_vertex_color_for_all_window]);
        self.put(p.flag.window_kind as u64);
        self.bools(&[p.flag.not_draw_content]);
        self.put(p.frames.len() as u64);
        self.color(&p.content.top_left_vertex_color);
        self.color(&p.content.top_right_vertex_color);
        self.color(&p.content.bottom_left_vertex_color);
        self.color(&p.content.bottom_right_vertex_color);
        self.put(u64::from(p.content.material_index));
        self.put(p.content.picture_uvs.len() as u64);
    }
}

fn quads(uvs: &[TextureUv], to: &mut Vec<u32>) {
    for uv in uvs {
        for v in [&uv.top_left, &uv.top_right, &uv.bottom_left, &uv.bottom_right] {
            to.push(v.x.to_bits());
            to.push(v.y.to_bits());
        }
    }
}

impl AnyPane {
    /// What nnbfl's `parse` of the kind gives.
    pub fn parse(kind: u64, cursor: &mut Cursor) -> Result<Self, FormatError> {
        Ok(match kind {
            PAN1 => Self::Pan1(Pane::parse(cursor)?),
            PIC1 => Self::Pic1(PicturePane::parse(cursor)?),
            TXT1 => Self::Txt1(TextBoxPane::parse(cursor)?),
            WND1 => Self::Wnd1(WindowPane::parse(cursor)?),
            ALI1 => Self::Ali1(AlignmentPane::parse(cursor)?),
            _ => panic!("no kind {kind}"),
        })
    }

    /// nnbfl's `write`.
    pub fn write(&self, writer: &mut Writer) {
        match self {
            Self::Pan1(p) => p.write(writer),
            Self::Pic1(p) => p.write(writer),
            Self::Txt1(p) => p.write(writer),
            Self::Wnd1(p) => p.write(writer),
            Self::Ali1(p) => p.write(writer),
        }
    }

    pub fn base(&self) -> &Pane {
        match self {
            Self::Pan1(p) => p,
            Self::Pic1(p) => &p.base,
            Self::Txt1(p) => &p.base,
            Self::Wnd1(p) => &p.base,
            Self::Ali1(p) => &p.base,
        }
    }

    pub fn kind(&self) -> u64 {
        match self {
            Self::Pan1(_) => PAN1,
            Self::Pic1(_) => PIC1,
            Self::Txt1(_) => TXT1,
            Self::Wnd1(_) => WND1,
            Self::Ali1(_) => ALI1,
        }
    }

    /// The pane in the flat layout: words from the front of `to`, whole new lists. `label_place` is where its label stands.
    pub fn flatten(&self, label_place: usize, to: &mut Whole) {
        to.quads.clear();
        to.units.clear();
        to.lines.clear();
        to.frames.clear();
        to.label.clear();
        let mut out = Out { words: &mut to.words, at: 0 };
        out.put(self.kind());
        out.base(self.base());
        match self {
            Self::Pan1(_) => {}
            Self::Pic1(p) => {
                out.picture(p);
                quads(&p.texture_uvs, &mut to.quads);
            }
            Self::Txt1(p) => {
                out.text_box(p, label_place);
                to.units.extend(p.text.iter().flat_map(|t| t.encode_utf16()));
                to.label.extend(p.label.iter().flat_map(|l| l.as_bytes()));
                for line in p.line_transforms.iter().flat_map(|t| &t.entries) {
                    to.lines.extend([line.line_offset.to_bits(), line.line_width.to_bits()]);
                }
            }
            Self::Wnd1(p) => {
                out.window(p);
                quads(&p.content.picture_uvs, &mut to.quads);
                for frame in &p.frames {
                    to.frames.extend([frame.material_index, u8::from(frame.texture_flip_mode).into()]);
                }
            }
            Self::Ali1(p) => {
                out.put(u64::from(p.direction));
                out.float(p.default_margin);
                out.bools(&[p.is_align_last_pane, p.is_vertical_alignment]);
            }
        }
        assert_eq!(out.at, WORDS_END[self.kind() as usize]);
    }
}
