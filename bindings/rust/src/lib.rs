//! Safe calls of the proved reader and writer of BFLYT panes: pan1, pic1, txt1, wnd1 and ali1.
//!
//! [`Buffer`] holds the lists and the record that the calls lend to the library: one buffer reads a whole page and allocates nothing for a pane.
//! [`View`] is a pane in the buffer; [`View::record`] makes a [`Record`] with lists of its own, and [`View::reach`] tells how much of a page the pane needs.
//! [`read_page`] and [`write_page`] do a whole page, its sections of other kinds included; [`read_strip`] and [`write_strip`] the panes alone. Each call is told
//! the [`ByteOrder`] of the bytes; nothing is guessed.
//!
//! ```
//! use bidlomeqa::{read_strip, write_strip, ByteOrder, Record};
//! let strip = write_strip(ByteOrder::Big, &[Record::default()]).unwrap();
//! assert_eq!(strip[..8], *b"pan1\0\0\0\x54");
//! assert_eq!(read_strip(ByteOrder::Big, &strip).unwrap(), [Record::default()]);
//! ```
#![deny(unsafe_code)]

mod buffer;
pub mod calls;
mod flags;
pub mod layout;
mod record;
mod refusal;
mod strip;
mod view;
mod words;

pub use buffer::{Body, Buffer, ByteOrder, Caption, Section};
pub use flags::*;
pub use record::*;
pub use refusal::Refusal;
pub use strip::{read_page, read_strip, write_page, write_strip, NotWritten, Piece, Refused};
pub use view::View;
