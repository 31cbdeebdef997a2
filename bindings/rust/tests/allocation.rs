//! A page is read with one buffer and no allocation for a pane.
use bidlomeqa::ByteOrder::Little;
use bidlomeqa::*;
use std::alloc::{GlobalAlloc, Layout, System};
use std::cell::Cell;

struct Counting;

// The allocations of this thread alone: the test's frame has others.
thread_local! {
    static ALLOCATIONS: Cell<usize> = const { Cell::new(0) };
}

unsafe impl GlobalAlloc for Counting {
    unsafe fn alloc(&self, layout: Layout) -> *mut u8 {
        ALLOCATIONS.set(ALLOCATIONS.get() + 1);
        System.alloc(layout)
    }

    unsafe fn dealloc(&self, pointer: *mut u8, layout: Layout) {
        System.dealloc(pointer, layout);
    }
}

#[global_allocator]
static ALLOCATOR: Counting = Counting;

#[test]
fn reading_and_writing_a_page_allocates_nothing() {
    let picture = PicturePane { quads: vec![Quad::default(); 3], ..Default::default() };
    let text_box = TextBoxPane { label: Some("label".into()), ..Default::default() };
    let kinds = [Own::Pan1, Own::Pic1(picture), Own::Txt1(text_box), Own::Wnd1(WindowPane::default()), Own::Ali1(AlignmentPane::default())];
    let records: Vec<Record> = (0..500).map(|i| Record { base: Pane::default(), own: kinds[i % 5].clone() }).collect();
    let strip = write_strip(Little, &records).unwrap();
    let mut buffer = Buffer::new();
    let mut out = vec![0; strip.len()];
    let mut end = 0;
    for record in &records[..5] {
        end = buffer.write_section(Little, record, &mut out, end).unwrap();
    }
    let before = ALLOCATIONS.get();
    assert!(before > 0);
    let (mut place, mut panes) = (0, 0);
    while let Ok(Section::Pane { view, next, .. }) = buffer.read_section(Little, &strip, place) {
        panes += usize::from(view.base() == Pane::default());
        place = next;
    }
    let mut end = 0;
    for record in &records {
        end = buffer.write_section(Little, record, &mut out, end).unwrap();
    }
    assert_eq!(ALLOCATIONS.get(), before);
    assert_eq!((panes, place, end), (500, strip.len(), strip.len()));
    assert_eq!(out, strip);
}
