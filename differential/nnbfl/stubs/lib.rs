// Stub: the modules of nnbfl that its five panes reach.
pub mod bflan;
pub mod bflyt;
pub mod core;
pub mod ui2d;
