// Stub.
pub mod anim_info;
pub mod targets;
