//! Lays nnbfl's files, byte for byte, beside stubs in the folder of what the build makes. `NNBFL` names the folder that holds `nnbfl/src`.
use std::path::{Path, PathBuf};
use std::{env, fs};

const FILES: [&str; 8] =
    ["bflan/anim_info.rs", "bflyt/flags.rs", "bflyt/pane.rs", "core/cursor.rs", "core/error.rs", "core/mod.rs", "core/writer.rs", "ui2d/types.rs"];

const STUBS: [&str; 8] =
    ["lib.rs", "bflan/mod.rs", "bflan/targets.rs", "bflyt/file.rs", "bflyt/mod.rs", "core/section.rs", "core/tests.rs", "ui2d/mod.rs"];

fn lay(from: &Path, to: &Path, name: &str) {
    let (from, to) = (from.join(name), to.join(name));
    println!("cargo:rerun-if-changed={}", from.display());
    fs::create_dir_all(to.parent().unwrap()).unwrap();
    let bytes = fs::read(&from).unwrap_or_else(|e| panic!("{}: {e}", from.display()));
    fs::write(to, bytes).unwrap();
}

fn main() {
    println!("cargo:rerun-if-env-changed=NNBFL");
    let here = PathBuf::from(env::var("CARGO_MANIFEST_DIR").unwrap());
    let beside = here.join("../../../shared/docs/src");
    let nnbfl = env::var("NNBFL").map_or(beside, PathBuf::from).join("nnbfl/src");
    let out = PathBuf::from(env::var("OUT_DIR").unwrap()).join("nnbfl");
    for name in FILES {
        lay(&nnbfl, &out, name);
    }
    for name in STUBS {
        lay(&here.join("stubs"), &out, name);
    }
}
