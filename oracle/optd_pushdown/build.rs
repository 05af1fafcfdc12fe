//! Writes the `mod` line that builds predicate_pushdown.rs where it lies, unchanged.

use std::path::PathBuf;
use std::{env, fs};

#[path = "../source_folder.rs"]
mod source_folder;

fn main() {
    let file = source_folder::core_src().join("optimize/predicate_pushdown.rs");
    let out = PathBuf::from(env::var("OUT_DIR").unwrap()).join("pushdown.rs");
    let line = format!("#[path = {:?}]\npub mod predicate_pushdown;\n", file.display().to_string());
    fs::write(out, line).expect("the mod line can be written");
    println!("cargo::rerun-if-changed={}", file.display());
    println!("cargo::rerun-if-changed=build.rs");
}
