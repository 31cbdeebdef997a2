//! nnbfl, unchanged: build.rs lays its files and the stubs.
#![allow(warnings)]
include!(concat!(env!("OUT_DIR"), "/nnbfl/lib.rs"));
