//! Links the proved library, which `bindings/staticlib.sh` writes.

use std::env;
use std::path::{Path, PathBuf};

fn main() {
    println!("cargo::rerun-if-env-changed=MOSSLADDER_LIB");
    let here = PathBuf::from(env::var("CARGO_MANIFEST_DIR").expect("cargo names the crate's folder"));
    let folder = match env::var_os("MOSSLADDER_LIB") {
        Some(folder) => PathBuf::from(folder),
        None => here.join("../../target/staticlib"),
    };
    let archive = folder.join("libboundary.a");
    println!("cargo::rerun-if-changed={}", archive.display());
    if !Path::new(&archive).exists() {
        println!(
            "cargo::error={} is not there: run `bindings/staticlib.sh` at the repository's top, or name its folder by MOSSLADDER_LIB",
            archive.display()
        );
        return;
    }
    println!("cargo::rustc-link-search=native={}", folder.display());
    println!("cargo::rustc-link-lib=static=boundary");
}
