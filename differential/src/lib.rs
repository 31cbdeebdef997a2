//! nnbfl against the static library: what both answer to the same bytes and to the same records.
pub mod compare;
pub mod fault;
pub mod generate;
pub mod lent;
pub mod mirror;
pub mod oracle;
pub mod outside;
pub mod panes;
pub mod random;
pub mod reach;
pub mod tally;
mod unflatten;
pub mod whole;
