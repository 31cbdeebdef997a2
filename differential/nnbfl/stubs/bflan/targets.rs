// Stub: animation targets, which only a per-character transform reaches. That is outside the domain, so reaching it is a fault of the comparison.
use crate::{
    bflan::anim_info::AnimInfoType,
    core::{Cursor, FormatError, Writer},
};

#[derive(Debug, Clone, PartialEq, serde::Serialize, serde::Deserialize)]
pub struct AnimTarget;

impl AnimTarget {
    pub fn parse(_cursor: &mut Cursor, _magic: &AnimInfoType) -> Result<Self, FormatError> {
        panic!("an animation target was read")
    }

    pub fn write(&self, _writer: &mut Writer) {
        panic!("an animation target was written")
    }
}
