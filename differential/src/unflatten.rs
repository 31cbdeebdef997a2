//! Records in the flat layout as nnbfl's panes.
use crate::panes::AnyPane;
use crate::whole::*;
use bidlomeqa::layout::*;
use nnbfl::bflyt::flags::*;
use nnbfl::bflyt::pane::*;
use nnbfl::ui2d::types::{Color4u8, Vector2f, Vector3f};

impl AnyPane {
    /// nnbfl's pane of a record that the write table lets through.
    pub fn of(w: &Whole) -> Self {
        let mut from = From { words: &w.words, at: PANE_FLAGS };
        let base = from.base(w);
        match w.kind() {
            PAN1 => Self::Pan1(base),
            PIC1 => Self::Pic1(from.picture(base, w)),
            TXT1 => Self::Txt1(from.text_box(base, w)),
            WND1 => Self::Wnd1(from.window(base, w)),
            ALI1 => Self::Ali1(AlignmentPane {
                base,
                direction: from.take() as u32,
                default_margin: from.float(),
                is_align_last_pane: from.bool(),
                is_vertical_alignment: from.bool(),
            }),
            kind => panic!("no kind {kind}"),
        }
    }
}

// One number after another out of a record's words.
struct From<'a> {
    words: &'a [u64],
    at: usize,
}

impl From<'_> {
    fn take(&mut self) -> u64 {
        self.at += 1;
        self.words[self.at - 1]
    }

    fn bool(&mut self) -> bool {
        self.take() != 0
    }

    fn byte(&mut self) -> u8 {
        self.take() as u8
    }

    fn half(&mut self) -> u16 {
        self.take() as u16
    }

    fn float(&mut self) -> f32 {
        f32::from_bits(self.take() as u32)
    }

    fn vector2(&mut self) -> Vector2f {
        Vector2f { x: self.float(), y: self.float() }
    }

    fn vector3(&mut self) -> Vector3f {
        Vector3f { x: self.float(), y: self.float(), z: self.float() }
    }

    fn color(&mut self) -> Color4u8 {
        Color4u8 { r: self.byte(), g: self.byte(), b: self.byte(), a: self.byte() }
    }

    fn base(&mut self, w: &Whole) -> Pane {
        let mut base = Pane {
            pane_flags: PaneFlags {
                is_visible: self.bool(),
                influenced_alpha: self.bool(),
                location_adjust: self.bool(),
                user_allocated: self.bool(),
                is_global_matrix_dirty: self.bool(),
                is_srt_matrix_user: self.bool(),
                is_global_matrix_user: self.bool(),
                is_constant_buffer_ready: self.bool(),
            },
            position: BflytPosition {
                position_x: self.byte().into(),
                position_y: self.byte().into(),
                parent_relative_position_x: self.byte().into(),
                parent_relative_position_y: self.byte().into(),
            },
            alpha: self.byte(),
            flag_ex: PaneFlagsEx {
                is_no_scale_by_parts: self.bool(),
                is_scale_size_by_parts_root: self.bool(),
                is_ext_user_data: self.bool(),
                reserve0: self.byte(),
            },
            pane_name: String::from_utf8(w.name()).unwrap(),
            user_name: String::from_utf8(w.user()).unwrap(),
            ..Pane::default()
        };
        self.at = TRANSLATION;
        base.translation = self.vector3();
        base.rotation = self.vector3();
        base.scale = self.vector2();
        base.size = self.vector2();
        base
    }

    fn picture(&mut self, base: Pane, w: &Whole) -> PicturePane {
        PicturePane {
            base,
            top_left_vertex_color: self.color(),
            top_right_vertex_color: self.color(),
            bottom_left_vertex_color: self.color(),
            bottom_right_vertex_color: self.color(),
            material_index: self.half(),
            is_shape: w.is(SHAPE_PRESENT),
            texture_uvs: uvs(&w.quads),
            shape_info_array_index: w.is(SHAPE_PRESENT).then_some(w.words[SHAPE_INDEX] as u32),
        }
    }

    fn text_flags(&mut self, scale: bool) -> TextPaneFlags {
        TextPaneFlags {
            is_enable_shadow: self.bool(),
            is_limit_glyph_count_to_length: self.bool(),
            is_invisible_border: self.bool(),
            is_double_border: self.bool(),
            is_per_character_transform: self.bool(),
            is_enable_center_ceiling: self.bool(),
            is_line_transform: self.bool(),
            is_default_tag_processor: self.bool(),
            is_per_character_transform_split_by_char_width: self.bool(),
            is_mix_shadow_alpha: self.bool(),
            is_reverse: self.bool(),
            is_per_character_transform_origin_to_center: self.bool(),
            is_keeping_font_scale: scale,
            is_per_character_transform_fix_space: self.bool(),
            is_per_character_transform_split_insert_space: self.bool(),
        }
    }

    fn text_box(&mut self, base: Pane, w: &Whole) -> TextBoxPane {
        let text_buffer_size = self.half();
        let text_length = self.half();
        let material_index = self.half();
        let font_index = self.half();
        let text_origin = TextPosition { horizontal: self.byte().into(), vertical: self.byte().into() };
        let text_alignment = self.byte().into();
        let text_flags = self.text_flags(w.is(MEASURE_KIND));
        self.at = MEASURE;
        let font_size = self.vector2();
        let italic_tilt = self.float();
        let font_top_color = self.color();
        let font_bottom_color = self.color();
        TextBoxPane {
            base,
            text_buffer_size,
            text_length,
            material_index,
            font_index,
            text_origin,
            text_alignment,
            text_flags,
            italic_tilt,
            font_top_color,
            font_bottom_color,
            font_size,
            character_space: self.float(),
            line_space: self.float(),
            shadow_translation: self.vector2(),
            shadow_size: self.vector2(),
            shadow_top_color: self.color(),
            shadow_bottom_color: self.color(),
            shadow_italic_tilt: self.float(),
            text: w.is(TEXT_PRESENT).then(|| String::from_utf16(&w.units).unwrap()),
            label: w.is(LABEL_PRESENT).then(|| String::from_utf8(w.label.clone()).unwrap()),
            line_transforms: w.is(LINES_PRESENT).then(|| line_table(&w.lines)),
            per_character_transform: None,
        }
    }

    fn window(&mut self, base: Pane, w: &Whole) -> WindowPane {
        let side = |word: usize| w.words[word] as u16 as i16;
        self.at = WINDOW_FLAGS;
        let flag = WindowFlags {
            use_left_corner_material: self.bool(),
            use_vertex_color_for_all_window: self.bool(),
            window_kind: self.byte().into(),
            not_draw_content: self.bool(),
        };
        self.at = CONTENT_COLORS;
        WindowPane {
            base,
            inflation_left: side(INFLATION),
            inflation_right: side(INFLATION + 1),
            inflation_top: side(INFLATION + 2),
            inflation_bottom: side(INFLATION + 3),
            frame_size_left: side(FRAME_SIZE),
            frame_size_right: side(FRAME_SIZE + 1),
            frame_size_top: side(FRAME_SIZE + 2),
            frame_size_bottom: side(FRAME_SIZE + 3),
            flag,
            content: WindowContent {
                top_left_vertex_color: self.color(),
                top_right_vertex_color: self.color(),
                bottom_left_vertex_color: self.color(),
                bottom_right_vertex_color: self.color(),
                material_index: self.half(),
                picture_uvs: uvs(&w.quads),
            },
            frames: w.frames.chunks(2).map(|f| WindowFrame { material_index: f[0], texture_flip_mode: (f[1] as u8).into() }).collect(),
        }
    }
}

fn uvs(quads: &[u32]) -> Vec<TextureUv> {
    let corner = |q: &[u32], i: usize| Vector2f { x: f32::from_bits(q[2 * i]), y: f32::from_bits(q[2 * i + 1]) };
    quads
        .chunks(8)
        .map(|q| TextureUv { top_left: corner(q, 0), top_right: corner(q, 1), bottom_left: corner(q, 2), bottom_right: corner(q, 3) })
        .collect()
}

fn line_table(lines: &[u32]) -> LineTransformTable {
    let line = |l: &[u32]| LineTransform { line_offset: f32::from_bits(l[0]), line_width: f32::from_bits(l[1]) };
    LineTransformTable { entries: lines.chunks(2).map(line).collect() }
}
