//! A whole page at once.
use crate::buffer::{Buffer, ByteOrder, Section};
use crate::record::Record;
use crate::refusal::Refusal;

/// Which section was refused, and why.
#[derive(Debug, Clone, Copy, PartialEq, Eq)]
pub struct Refused {
    /// The section's place in the strip.
    pub place: usize,
    pub refusal: Refusal,
}

impl std::fmt::Display for Refused {
    fn fmt(&self, f: &mut std::fmt::Formatter) -> std::fmt::Result {
        write!(f, "section at {}: {}", self.place, self.refusal)
    }
}

impl std::error::Error for Refused {}

/// A section of a page.
#[derive(Debug, Clone, PartialEq)]
pub enum Piece {
    Pane(Box<Record>),
    /// One of another kind, header and all, as it stands, and the byte order of its numbers. Which of its bytes are numbers is not known here.
    Other {
        order: ByteOrder,
        section: Vec<u8>,
    },
}

/// Why a page was not written.
#[derive(Debug, Clone, Copy, PartialEq, Eq)]
pub enum NotWritten {
    /// A pane was refused.
    Refused(Refused),
    /// The section of another kind that would stand at `place` is of the other byte order, and cannot be turned.
    OtherOrder { place: usize, order: ByteOrder },
}

impl std::fmt::Display for NotWritten {
    fn fmt(&self, f: &mut std::fmt::Formatter) -> std::fmt::Result {
        match self {
            Self::Refused(refused) => refused.fmt(f),
            Self::OtherOrder { place, order: ByteOrder::Little } => {
                write!(f, "section at {place}: of another kind and little-endian, so it cannot be written into a big-endian page")
            }
            Self::OtherOrder { place, order: ByteOrder::Big } => {
                write!(f, "section at {place}: of another kind and big-endian, so it cannot be written into a little-endian page")
            }
        }
    }
}

impl std::error::Error for NotWritten {}

impl From<Refused> for NotWritten {
    fn from(refused: Refused) -> Self {
        Self::Refused(refused)
    }
}

/// Reads every section of a page, so that [`write_page`] writes back those of other kinds too. The first section that is refused ends it, be it for a pane that
/// reads bytes past its own section ([`Refusal::PastSection`]).
pub fn read_page(order: ByteOrder, strip: &[u8]) -> Result<Vec<Piece>, Refused> {
    let mut buffer = Buffer::new();
    let mut pieces = Vec::new();
    let mut place = 0;
    loop {
        let (piece, next) = match buffer.read_section(order, strip, place) {
            Ok(Section::End) => return Ok(pieces),
            Ok(Section::Passed { next }) => (Piece::Other { order, section: strip[place..next].to_vec() }, next),
            Ok(Section::Pane { view, next, .. }) => (Piece::Pane(Box::new(view.record())), next),
            Err(refusal) => return Err(Refused { place, refusal }),
        };
        pieces.push(piece);
        place = next;
    }
}

/// Writes the sections of a page, one after another. Panes may have been read in either byte order. A section of another kind is copied as it stands, its bytes not
/// looked at: one of the other byte order, by what the piece says, is not written.
pub fn write_page(order: ByteOrder, pieces: &[Piece]) -> Result<Vec<u8>, NotWritten> {
    let mut out = Output::new(order, pieces.len());
    for piece in pieces {
        match piece {
            Piece::Pane(record) => out.write(record)?,
            Piece::Other { order: own, .. } if *own != order => return Err(NotWritten::OtherOrder { place: out.place, order: *own }),
            Piece::Other { section, .. } => out.copy(section),
        }
    }
    Ok(out.finish())
}

/// Reads the panes of a strip. Sections of other kinds are passed and are not among the records: to write a page back, see [`read_page`].
pub fn read_strip(order: ByteOrder, strip: &[u8]) -> Result<Vec<Record>, Refused> {
    let pieces = read_page(order, strip)?;
    Ok(pieces.into_iter().filter_map(|piece| if let Piece::Pane(record) = piece { Some(*record) } else { None }).collect())
}

/// Writes the records, one section after another.
pub fn write_strip(order: ByteOrder, records: &[Record]) -> Result<Vec<u8>, Refused> {
    let mut out = Output::new(order, records.len());
    for record in records {
        out.write(record)?;
    }
    Ok(out.finish())
}

const MOST: usize = 16_777_216;

// An output that grows up to the longest that a call takes.
struct Output {
    order: ByteOrder,
    buffer: Buffer,
    out: Vec<u8>,
    place: usize,
}

impl Output {
    fn new(order: ByteOrder, sections: usize) -> Self {
        Self { order, buffer: Buffer::new(), out: vec![0; (256 * sections).min(MOST)], place: 0 }
    }

    fn write(&mut self, record: &Record) -> Result<(), Refused> {
        let place = self.place;
        let end = match self.buffer.write_section(self.order, record, &mut self.out, place) {
            Err(Refusal::OutputEnd { end, .. }) if self.out.len() < MOST => {
                self.out.resize((2 * end as usize).min(MOST), 0);
                self.buffer.write_section(self.order, record, &mut self.out, place)
            }
            answer => answer,
        };
        self.place = end.map_err(|refusal| Refused { place, refusal })?;
        Ok(())
    }

    fn copy(&mut self, section: &[u8]) {
        let end = self.place + section.len();
        if self.out.len() < end {
            self.out.resize(end, 0);
        }
        self.out[self.place..end].copy_from_slice(section);
        self.place = end;
    }

    fn finish(mut self) -> Vec<u8> {
        self.out.truncate(self.place);
        self.out
    }
}
