// Stub.
pub mod file;
pub mod flags;
pub mod pane;
