//! Typed records through the library and back.
use bidlomeqa::ByteOrder::{Big, Little};
use bidlomeqa::*;

fn name<const N: usize>(text: &str) -> FixedString<N> {
    FixedString::new(text.as_bytes()).unwrap()
}

fn vector2(x: f32, y: f32) -> Vector2f {
    Vector2f { x: x.into(), y: y.into() }
}

fn base(pane_name: &str) -> Pane {
    Pane {
        pane_flags: PaneFlags { is_visible: true, is_srt_matrix_user: true, ..Default::default() },
        position: BflytPosition {
            position_x: HorizontalPosition::Left,
            position_y: VerticalPosition::Bottom,
            parent_relative_position_x: HorizontalPosition::Right,
            parent_relative_position_y: VerticalPosition::Top,
        },
        alpha: 200,
        flag_ex: PaneFlagsEx { is_ext_user_data: true, reserve0: 31, ..Default::default() },
        pane_name: name(pane_name),
        user_name: name("user"),
        translation: Vector3f { x: 1.5.into(), y: (-0.0).into(), z: Binary32 { bits: 0x7F80_0001 } },
        rotation: Vector3f { x: f32::INFINITY.into(), ..Default::default() },
        scale: vector2(1.0, 2.0),
        size: vector2(640.0, 480.0),
    }
}

fn quad(n: u32) -> Quad {
    let corner = |i| Vector2f { x: Binary32 { bits: n + i }, y: Binary32 { bits: n + i + 1 } };
    Quad { top_left: corner(0), top_right: corner(2), bottom_left: corner(4), bottom_right: corner(6) }
}

fn color(n: u8) -> Color4u8 {
    Color4u8 { r: n, g: n + 1, b: n + 2, a: n + 3 }
}

fn picture() -> Record {
    let own = PicturePane {
        vertex_colors: [color(0), color(10), color(20), color(30)],
        material_index: 0xABCD,
        shape_info_array_index: Some(0xFFFE_FDFC),
        quads: vec![quad(1), quad(100)],
    };
    Record { base: base("P_Picture"), own: Own::Pic1(own) }
}

fn text_box() -> Record {
    let text: Vec<u16> = "grüß 😀".encode_utf16().collect();
    let fixed = TextBoxFixed {
        text_buffer_size: 100,
        text_length: 2 * text.len() as u16 + 1,
        material_index: 3,
        font_index: 4,
        text_origin: TextPosition { horizontal: HorizontalPosition::Right, vertical: VerticalPosition::Top },
        text_alignment: TextAlignment::Center,
        text_flags: TextPaneFlags { is_line_transform: true, is_reverse: true, ..Default::default() },
        font_measure: FontMeasure::Scale(vector2(0.5, 0.25)),
        italic_tilt: 0.125.into(),
        font_top_color: color(1),
        font_bottom_color: color(2),
        character_space: 3.0.into(),
        line_space: 4.0.into(),
        shadow_translation: vector2(5.0, 6.0),
        shadow_size: vector2(7.0, 8.0),
        shadow_top_color: color(3),
        shadow_bottom_color: color(4),
        shadow_italic_tilt: 9.0.into(),
    };
    let line = LineTransform { line_offset: 10.0.into(), line_width: 11.0.into() };
    let own =
        TextBoxPane { fixed, text: Some(text), label: Some("Überschrift".into()), line_transforms: Some(vec![line, LineTransform::default()]) };
    Record { base: base("T_Text"), own: Own::Txt1(own) }
}

fn window() -> Record {
    let frame = |material_index, texture_flip_mode| WindowFrame { material_index, texture_flip_mode };
    let own = WindowPane {
        inflation: Sides { left: -1, right: 2, top: i16::MIN, bottom: i16::MAX },
        frame_size: Sides { left: 5, right: 6, top: 7, bottom: 8 },
        flag: WindowFlags { use_left_corner_material: true, window_kind: WindowKind::HorizontalNoContent, ..Default::default() },
        content: WindowContent { vertex_colors: [color(5); 4], material_index: 9, quads: vec![quad(7)] },
        frames: vec![frame(1, TextureFlip::Rotate270), frame(2, TextureFlip::None)],
    };
    Record { base: base("W_Window"), own: Own::Wnd1(own) }
}

fn alignment() -> Record {
    let own = AlignmentPane { direction: 7, default_margin: 1.0.into(), is_align_last_pane: true, is_vertical_alignment: false };
    Record { base: base("A_Alignment"), own: Own::Ali1(own) }
}

fn page() -> Vec<Record> {
    vec![Record { base: base("N_Root"), own: Own::Pan1 }, picture(), text_box(), window(), alignment(), Record::default()]
}

#[test]
fn a_page_comes_back_as_it_was_written() {
    for order in [Little, Big] {
        let strip = write_strip(order, &page()).unwrap();
        assert_eq!(read_strip(order, &strip).unwrap(), page());
    }
}

#[test]
fn the_other_byte_order_turns_numbers_alone() {
    const BASE: (usize, usize, usize) = (44, 84, 4);
    const SIZE: (usize, usize, usize) = (4, 8, 4);
    // From and to which byte of the section numbers of so many bytes stand.
    let picture = (picture(), vec![(100, 102, 2), (104, 172, 4)]);
    let text_box = (text_box(), vec![(84, 92, 2), (94, 96, 2), (96, 104, 4), (112, 148, 4), (156, 168, 4), (168, 182, 2), (201, 217, 4)]);
    let window = (window(), vec![(84, 100, 2), (104, 112, 4), (128, 130, 2), (132, 164, 4), (164, 172, 4), (172, 174, 2), (176, 178, 2)]);
    let alignment = (alignment(), vec![(84, 92, 4)]);
    let base = (Record { base: base("N_Root"), own: Own::Pan1 }, vec![]);
    for (record, numbers) in [base, picture, text_box, window, alignment] {
        let [mut strip, big] = [Little, Big].map(|order| write_strip(order, std::slice::from_ref(&record)).unwrap());
        for (from, to, width) in [vec![SIZE, BASE], numbers].concat() {
            strip[from..to].chunks_exact_mut(width).for_each(<[u8]>::reverse);
        }
        assert_eq!(strip, big);
    }
}

#[test]
fn blank_records_of_every_kind_come_back() {
    let kinds = [
        Own::Pan1,
        Own::Pic1(PicturePane::default()),
        Own::Txt1(TextBoxPane::default()),
        Own::Wnd1(WindowPane::default()),
        Own::Ali1(AlignmentPane::default()),
    ];
    let records = kinds.map(|own| Record { base: Pane::default(), own });
    assert_eq!(read_strip(Little, &write_strip(Little, &records).unwrap()).unwrap(), records);
}

#[test]
fn an_empty_part_is_no_absent_one() {
    let mut record = text_box();
    let Own::Txt1(own) = &mut record.own else { unreachable!() };
    own.text = Some(Vec::new());
    own.fixed.text_length = 0;
    own.label = Some(String::new());
    own.line_transforms = Some(Vec::new());
    let strip = write_strip(Little, std::slice::from_ref(&record)).unwrap();
    assert_eq!(read_strip(Little, &strip).unwrap(), [record]);
}

#[test]
fn a_float_keeps_its_bits() {
    for order in [Little, Big] {
        let strip = write_strip(order, &page()).unwrap();
        let translation = read_strip(order, &strip).unwrap()[0].base.translation;
        assert_eq!(translation.x.value(), 1.5);
        assert!(translation.y.value().is_sign_negative());
        assert!(translation.z.value().is_nan());
        assert_eq!(translation.z.bits, 0x7F80_0001);
    }
}

#[test]
fn the_layouts_of_document_01() {
    let mut buffer = Buffer::new();
    let mut out = vec![0; 400];
    assert_eq!(buffer.write_body(Little, &window(), &mut out, 8), Ok(8 + 172));
    assert_eq!(out[8 + 100..8 + 104], 164u32.to_le_bytes());
    let mut record = text_box();
    let Own::Txt1(own) = &mut record.own else { unreachable!() };
    own.text = Some(vec![0x41]);
    own.fixed.text_length = 2;
    own.label = Some("ab".into());
    own.line_transforms = Some(vec![LineTransform::default()]);
    assert_eq!(buffer.write_body(Little, &record, &mut out, 8), Ok(8 + 177));
    for (at, offset) in [(92, 168u32), (120, 172), (152, 176), (156, 0)] {
        assert_eq!(out[8 + at..8 + at + 4], offset.to_le_bytes());
    }
    assert_eq!(buffer.write_section(Little, &record, &mut out, 0), Ok(188));
}

#[test]
fn sections_of_other_kinds_are_passed() {
    let mut strip = b"grp1\x0c\0\0\0abcd".to_vec();
    strip.extend(write_strip(Little, &[alignment()]).unwrap());
    let mut buffer = Buffer::new();
    assert!(matches!(buffer.read_section(Little, &strip, 0), Ok(Section::Passed { next: 12 })));
    assert!(matches!(buffer.read_section(Little, &strip, 12), Ok(Section::Pane { end: 108, next: 108, reach: 108, .. })));
    assert!(matches!(buffer.read_section(Little, &strip, 108), Ok(Section::End)));
    assert_eq!(read_strip(Little, &strip).unwrap(), [alignment()]);
}

#[test]
fn label_and_caption_are_parts_of_what_is_lent() {
    let strip = write_strip(Little, &[text_box(), alignment()]).unwrap();
    let mut buffer = Buffer::new();
    let Ok(Section::Pane { view, next, .. }) = buffer.read_section(Little, &strip, 0) else { panic!() };
    assert_eq!(view.label(), Some("Überschrift".as_bytes()));
    assert_eq!(view.caption(&strip, b"lent"), Caption::Strip("Überschrift".as_bytes()));
    assert_eq!(view.caption(b"another strip", b"lent"), Caption::Lent(b"lent"));
    let Ok(Section::Pane { view, .. }) = buffer.read_section(Little, &strip, next) else { panic!() };
    assert_eq!(view.label(), None);
    assert_eq!(view.caption(&strip, b"lent"), Caption::Lent(b"lent"));
}

#[test]
fn a_body_is_read_by_its_kind() {
    let mut out = vec![0; 300];
    let mut buffer = Buffer::new();
    let end = buffer.write_body(Little, &picture(), &mut out, 9).unwrap();
    let body = buffer.read_body(Little, Kind::Pic1, &out, 9).unwrap();
    assert_eq!((body.end, body.reach, body.view.record()), (end, end, picture()));
}

#[test]
fn a_view_has_the_fields_of_its_record() {
    let strip = write_strip(Little, &[picture(), window(), alignment()]).unwrap();
    let mut buffer = Buffer::new();
    let Ok(Section::Pane { view, next, .. }) = buffer.read_section(Little, &strip, 0) else { panic!() };
    let Own::Pic1(own) = picture().own else { unreachable!() };
    assert_eq!(view.vertex_colors(), Some(own.vertex_colors));
    assert_eq!(view.material_index(), Some(own.material_index));
    assert_eq!(view.shape_info_array_index(), own.shape_info_array_index);
    assert_eq!((view.inflation(), view.frame_size(), view.window_flags()), (None, None, None));
    let Ok(Section::Pane { view, next, .. }) = buffer.read_section(Little, &strip, next) else { panic!() };
    let Own::Wnd1(own) = window().own else { unreachable!() };
    assert_eq!(view.vertex_colors(), Some(own.content.vertex_colors));
    assert_eq!(view.material_index(), Some(own.content.material_index));
    assert_eq!(view.inflation(), Some(own.inflation));
    assert_eq!(view.frame_size(), Some(own.frame_size));
    assert_eq!(view.window_flags(), Some(own.flag));
    assert_eq!(view.shape_info_array_index(), None);
    let Ok(Section::Pane { view, .. }) = buffer.read_section(Little, &strip, next) else { panic!() };
    assert_eq!((view.vertex_colors(), view.material_index()), (None, None));
}

fn other(order: ByteOrder, letters: &[u8; 4], body: &[u8]) -> Piece {
    let size = 8 + body.len() as u32;
    let size = if order == Little { size.to_le_bytes() } else { size.to_be_bytes() };
    Piece::Other { order, section: [letters, &size, body].concat() }
}

#[test]
fn a_page_comes_back_with_its_other_sections() {
    for (order, user_data) in [(Little, b"usd1\x0c\0\0\0abcd"), (Big, b"usd1\0\0\0\x0cabcd")] {
        let pieces = vec![other(order, b"usd1", b"abcd"), Piece::Pane(Box::default()), other(order, b"pas1", b"")];
        let page = write_page(order, &pieces).unwrap();
        assert_eq!(page.len(), 12 + 84 + 8);
        assert_eq!(page[..12], *user_data);
        assert_eq!(read_page(order, &page).unwrap(), pieces);
        assert_eq!(write_page(order, &read_page(order, &page).unwrap()).unwrap(), page);
        assert_eq!(read_strip(order, &page).unwrap(), [Record::default()]);
    }
}

#[test]
fn a_page_of_panes_is_taken_into_the_other_byte_order() {
    for (order, turned) in [(Little, Big), (Big, Little)] {
        let records = page();
        let page = read_page(order, &write_strip(order, &records).unwrap()).unwrap();
        assert_eq!(write_page(turned, &page).unwrap(), write_strip(turned, &records).unwrap());
    }
}

#[test]
fn a_section_of_another_kind_is_not_taken_into_the_other_byte_order() {
    // 65,792 is 00 01 01 00: a size that is the same either way round does not hide the order.
    for body in [0, 4, 65_784] {
        for (order, turned) in [(Little, Big), (Big, Little)] {
            let pieces = [Piece::Pane(Box::default()), other(order, b"grp1", &vec![1; body])];
            let page = read_page(order, &write_page(order, &pieces).unwrap()).unwrap();
            assert_eq!(page, pieces);
            assert_eq!(write_page(turned, &page), Err(NotWritten::OtherOrder { place: 84, order }));
        }
    }
    let said = |order| NotWritten::OtherOrder { place: 84, order }.to_string();
    assert_eq!(said(Little), "section at 84: of another kind and little-endian, so it cannot be written into a big-endian page");
    assert_eq!(said(Big), "section at 84: of another kind and big-endian, so it cannot be written into a little-endian page");
}

#[test]
fn a_page_tells_the_pane_that_is_refused() {
    let mut pane = Record::default();
    pane.base.flag_ex.reserve0 = 32;
    let pieces = [other(Big, b"pas1", b""), Piece::Pane(Box::new(pane))];
    let refused = Refused { place: 8, refusal: Refusal::Reserve0 { value: 32 } };
    assert_eq!(write_page(Big, &pieces), Err(NotWritten::Refused(refused)));
}
