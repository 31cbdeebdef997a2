//! Sections made by hand, in either byte order.
#![allow(dead_code)] // each file of tests takes what it needs
use bidlomeqa::ByteOrder::{self, Big};
use bidlomeqa::Kind;

// Where numbers of a picture, a text box and a window stand in a section at 0.
pub const SECTION_SIZE: usize = 4;
pub const QUADS: usize = 8 + 94;
pub const SHAPE: usize = 8 + 95;
pub const TEXT_LENGTH: usize = 8 + 78;
pub const TEXT_FLAGS: usize = 8 + 86;
pub const TEXT: usize = 8 + 92;
pub const LABEL: usize = 8 + 120;
pub const LINES: usize = 8 + 152;
pub const PER_CHARACTER: usize = 8 + 156;
pub const FRAMES: usize = 8 + 92;
pub const CONTENT: usize = 8 + 96;
pub const TABLE: usize = 8 + 100;

/// A number to put in: its place, its width and its value.
pub type Number = (usize, usize, u32);

/// A section at 0 with a size that holds it all: fixed bytes of zeros and the bytes after them, then numbers put in, of which one may be another size.
pub fn section(order: ByteOrder, kind: Kind, after: &[u8], numbers: &[Number]) -> Vec<u8> {
    let fixed = [76, 96, 160, 104, 88][kind as usize];
    let mut data = [&vec![0; 8 + fixed][..], after].concat();
    data[..4].copy_from_slice(kind.letters());
    let size = (SECTION_SIZE, 4, data.len() as u32);
    for (at, width, number) in [&[size][..], numbers].concat() {
        let bytes = &mut data[at..at + width];
        bytes.copy_from_slice(&number.to_le_bytes()[..width]);
        if order == Big {
            bytes.reverse();
        }
    }
    data
}
