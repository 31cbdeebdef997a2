//! Links crates/exports/out/libexports.a, which `rt lib` in crates/exports makes; `BIDLOMEQA_LIB` names another folder.
use std::env;
use std::path::PathBuf;

fn main() {
    println!("cargo:rerun-if-env-changed=BIDLOMEQA_LIB");
    let here = PathBuf::from(env::var("CARGO_MANIFEST_DIR").unwrap());
    let made = here.join("../../crates/exports/out");
    let folder = env::var("BIDLOMEQA_LIB").map_or(made, PathBuf::from);
    let library = folder.join("libexports.a");
    println!("cargo:rerun-if-changed={}", library.display());
    if !library.exists() {
        panic!("{} is not there: run `rt lib` in crates/exports", library.display());
    }
    println!("cargo:rustc-link-search=native={}", folder.display());
    println!("cargo:rustc-link-lib=static=exports");
}
