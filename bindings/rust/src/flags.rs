//! Packed fields and their enums, named as in nnbfl.
use crate::words::{cases, fields};

cases!(HorizontalPosition { Center, Left, Right });

cases!(VerticalPosition { Center, Top, Bottom });

cases!(TextAlignment { Synchronous, Left, Center, Right });

cases!(WindowKind { Around, Horizontal, HorizontalNoContent });

cases!(TextureFlip { None, FlipU, FlipV, Rotate90, Rotate180, Rotate270 });

fields!(BflytPosition {
    position_x: HorizontalPosition,
    position_y: VerticalPosition,
    parent_relative_position_x: HorizontalPosition,
    parent_relative_position_y: VerticalPosition,
});

fields!(TextPosition { horizontal: HorizontalPosition, vertical: VerticalPosition });

fields!(PaneFlags {
    is_visible: bool,
    influenced_alpha: bool,
    location_adjust: bool,
    user_allocated: bool,
    is_global_matrix_dirty: bool,
    is_srt_matrix_user: bool,
    is_global_matrix_user: bool,
    is_constant_buffer_ready: bool,
});

fields!(
    /// `reserve0` is at most 31 in what is written.
    PaneFlagsEx {
        is_no_scale_by_parts: bool,
        is_scale_size_by_parts_root: bool,
        is_ext_user_data: bool,
        reserve0: u8,
    }
);

fields!(
    /// The text box's flags; nnbfl's `is_keeping_font_scale` is the case of the font measure.
    TextPaneFlags {
        is_enable_shadow: bool,
        is_limit_glyph_count_to_length: bool,
        is_invisible_border: bool,
        is_double_border: bool,
        is_per_character_transform: bool,
        is_enable_center_ceiling: bool,
        is_line_transform: bool,
        is_default_tag_processor: bool,
        is_per_character_transform_split_by_char_width: bool,
        is_mix_shadow_alpha: bool,
        is_reverse: bool,
        is_per_character_transform_origin_to_center: bool,
        is_per_character_transform_fix_space: bool,
        is_per_character_transform_split_insert_space: bool,
    }
);

fields!(WindowFlags { use_left_corner_material: bool, use_vertex_color_for_all_window: bool, window_kind: WindowKind, not_draw_content: bool });
