// Stub: names that core/mod.rs hands on and the five panes do not use.
pub struct SectionHeader;

pub struct SectionMagic;
