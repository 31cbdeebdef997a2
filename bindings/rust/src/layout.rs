//! The flat layout of a record and the numbers of the answers, from the one file that defines them.
include!("../../../crates/flat/src/layout.rt");
