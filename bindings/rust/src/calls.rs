//! The calls of the static library over slices, as `layout` describes them; `order` is `LITTLE` or `BIG`. All that is unsafe stands here.
#![allow(unsafe_code)]

use crate::layout::{ANSWER_WORDS, FILLED_WORDS};

/// The three words of an answer.
pub type Answer = [u64; ANSWER_WORDS];

/// How many numbers of the quads, the units, the lines and the frames a record counts.
pub type Filled = [u64; FILLED_WORDS];

/// The lists that a read fills.
pub struct ReadLists<'a> {
    pub quads: &'a mut [u32],
    pub units: &'a mut [u16],
    pub lines: &'a mut [u32],
    pub frames: &'a mut [u16],
}

/// The lists and the label that a write takes.
#[derive(Clone, Copy)]
pub struct WriteLists<'a> {
    pub quads: &'a [u32],
    pub units: &'a [u16],
    pub lines: &'a [u32],
    pub frames: &'a [u16],
    pub label: &'a [u8],
}

// A slice crosses as pointer and length; the pointer of an empty slice is not null and aligned.
#[rustfmt::skip]
extern "C" {
    fn bidlomeqa_read_section(
        order: u64, data: *const u8, data_length: usize, place: usize,
        quads: *mut u32, quads_length: usize, units: *mut u16, units_length: usize,
        lines: *mut u32, lines_length: usize, frames: *mut u16, frames_length: usize,
        record: *mut u64, record_length: usize, answer: *mut u64, answer_length: usize,
    ) -> u64;
    fn bidlomeqa_read_body(
        order: u64, kind: u64, data: *const u8, data_length: usize, place: usize,
        quads: *mut u32, quads_length: usize, units: *mut u16, units_length: usize,
        lines: *mut u32, lines_length: usize, frames: *mut u16, frames_length: usize,
        record: *mut u64, record_length: usize, answer: *mut u64, answer_length: usize,
    ) -> u64;
    fn bidlomeqa_write_section(
        order: u64, record: *const u64, record_length: usize,
        quads: *const u32, quads_length: usize, units: *const u16, units_length: usize,
        lines: *const u32, lines_length: usize, frames: *const u16, frames_length: usize,
        label: *const u8, label_length: usize, out: *mut u8, out_length: usize, place: usize,
        answer: *mut u64, answer_length: usize,
    ) -> u64;
    fn bidlomeqa_write_body(
        order: u64, record: *const u64, record_length: usize,
        quads: *const u32, quads_length: usize, units: *const u16, units_length: usize,
        lines: *const u32, lines_length: usize, frames: *const u16, frames_length: usize,
        label: *const u8, label_length: usize, out: *mut u8, out_length: usize, place: usize,
        answer: *mut u64, answer_length: usize,
    ) -> u64;
    fn bidlomeqa_label(
        data: *const u8, data_length: usize, record: *const u64, record_length: usize,
        answer: *mut u64, answer_length: usize,
    ) -> u64;
    fn bidlomeqa_caption(
        strip: *const u8, strip_length: usize, record: *const u64, record_length: usize,
        lent: *const u8, lent_length: usize, answer: *mut u64, answer_length: usize,
    ) -> u64;
    fn bidlomeqa_filled(record: *const u64, record_length: usize, filled: *mut u64, filled_length: usize) -> u64;
}

/// Reads the section at `place`.
#[rustfmt::skip]
pub fn read_section(order: u64, data: &[u8], place: usize, lists: &mut ReadLists, record: &mut [u64], answer: &mut [u64]) -> u64 {
    let ReadLists { quads, units, lines, frames } = lists;
    // SAFETY: each pointer and length is a slice's own, and the library stays within them.
    unsafe {
        bidlomeqa_read_section(
            order, data.as_ptr(), data.len(), place,
            quads.as_mut_ptr(), quads.len(), units.as_mut_ptr(), units.len(),
            lines.as_mut_ptr(), lines.len(), frames.as_mut_ptr(), frames.len(),
            record.as_mut_ptr(), record.len(), answer.as_mut_ptr(), answer.len(),
        )
    }
}

/// Reads a body of the kind at `place`.
#[rustfmt::skip]
pub fn read_body(order: u64, kind: u64, data: &[u8], place: usize, lists: &mut ReadLists, record: &mut [u64], answer: &mut [u64]) -> u64 {
    let ReadLists { quads, units, lines, frames } = lists;
    // SAFETY: each pointer and length is a slice's own, and the library stays within them.
    unsafe {
        bidlomeqa_read_body(
            order, kind, data.as_ptr(), data.len(), place,
            quads.as_mut_ptr(), quads.len(), units.as_mut_ptr(), units.len(),
            lines.as_mut_ptr(), lines.len(), frames.as_mut_ptr(), frames.len(),
            record.as_mut_ptr(), record.len(), answer.as_mut_ptr(), answer.len(),
        )
    }
}

/// Writes the record as a section at `place`.
#[rustfmt::skip]
pub fn write_section(order: u64, record: &[u64], lists: WriteLists, out: &mut [u8], place: usize, answer: &mut [u64]) -> u64 {
    let WriteLists { quads, units, lines, frames, label } = lists;
    // SAFETY: each pointer and length is a slice's own, and the library stays within them.
    unsafe {
        bidlomeqa_write_section(
            order, record.as_ptr(), record.len(),
            quads.as_ptr(), quads.len(), units.as_ptr(), units.len(),
            lines.as_ptr(), lines.len(), frames.as_ptr(), frames.len(),
            label.as_ptr(), label.len(), out.as_mut_ptr(), out.len(), place,
            answer.as_mut_ptr(), answer.len(),
        )
    }
}

/// Writes the record's body at `place`.
#[rustfmt::skip]
pub fn write_body(order: u64, record: &[u64], lists: WriteLists, out: &mut [u8], place: usize, answer: &mut [u64]) -> u64 {
    let WriteLists { quads, units, lines, frames, label } = lists;
    // SAFETY: each pointer and length is a slice's own, and the library stays within them.
    unsafe {
        bidlomeqa_write_body(
            order, record.as_ptr(), record.len(),
            quads.as_ptr(), quads.len(), units.as_ptr(), units.len(),
            lines.as_ptr(), lines.len(), frames.as_ptr(), frames.len(),
            label.as_ptr(), label.len(), out.as_mut_ptr(), out.len(), place,
            answer.as_mut_ptr(), answer.len(),
        )
    }
}

/// Where the record's label stands in the strip.
pub fn label(data: &[u8], record: &[u64], answer: &mut [u64]) -> u64 {
    // SAFETY: each pointer and length is a slice's own, and the library stays within them.
    unsafe { bidlomeqa_label(data.as_ptr(), data.len(), record.as_ptr(), record.len(), answer.as_mut_ptr(), answer.len()) }
}

/// The label if there is one, otherwise the lent caption.
pub fn caption(strip: &[u8], record: &[u64], lent: &[u8], answer: &mut [u64]) -> u64 {
    // SAFETY: each pointer and length is a slice's own, and the library stays within them.
    unsafe {
        bidlomeqa_caption(strip.as_ptr(), strip.len(), record.as_ptr(), record.len(), lent.as_ptr(), lent.len(), answer.as_mut_ptr(), answer.len())
    }
}

/// How many numbers of each list the record counts: a read of it filled the first so many, and a write of it is to be handed so many.
pub fn filled(record: &[u64], filled: &mut [u64]) -> u64 {
    // SAFETY: each pointer and length is a slice's own, and the library stays within them.
    unsafe { bidlomeqa_filled(record.as_ptr(), record.len(), filled.as_mut_ptr(), filled.len()) }
}
