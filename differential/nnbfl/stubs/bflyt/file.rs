// Stub: sections, which only the parts pane reaches.
use crate::core::{Cursor, FormatError, Writer};

#[derive(Debug, Clone, serde::Serialize, serde::Deserialize)]
pub struct BflytSection;

impl BflytSection {
    pub fn parse(_cursor: &mut Cursor) -> Result<Self, FormatError> {
        panic!("a section was read")
    }

    pub fn write(&self, _writer: &mut Writer) {
        panic!("a section was written")
    }
}
