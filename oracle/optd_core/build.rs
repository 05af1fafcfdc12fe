//! Lays out a source tree in OUT_DIR: links to optd's six files where they lie, unchanged, and links
//! to this package's stand-ins for the modules that those six name and the oracle never runs.

use std::path::{Path, PathBuf};
use std::{env, fs};

#[path = "../source_folder.rs"]
mod source_folder;

const OPTD: [&str; 6] = [
    "lib.rs",
    "analysis.rs",
    "analysis/logical_facts.rs",
    "optimize/mod.rs",
    "optimize/expr_simplify.rs",
    "optimize/predicate_pushdown.rs",
];

const STANDINS: [&str; 14] = [
    "catalog.rs",
    "cost.rs",
    "display.rs",
    "hypergraph.rs",
    "statistics.rs",
    "substrait.rs",
    "tpch.rs",
    "optimize/holistic_unnesting.rs",
    "optimize/join_ordering.rs",
    "optimize/join_tree_normalize.rs",
    "optimize/mark_join_to_semi_join.rs",
    "optimize/projection_elimination.rs",
    "optimize/subquery_to_join.rs",
    "optimize/unnesting.rs",
];

fn main() {
    let optd = source_folder::core_src();
    let own = PathBuf::from(env::var("CARGO_MANIFEST_DIR").unwrap()).join("standins");
    let tree = PathBuf::from(env::var("OUT_DIR").unwrap()).join("tree");
    if tree.exists() {
        fs::remove_dir_all(&tree).expect("the old tree of links can be removed");
    }
    for folder in ["analysis", "optimize"] {
        fs::create_dir_all(tree.join(folder)).expect("a folder for the links can be made");
    }
    for file in OPTD {
        link(&optd.join(file), &tree.join(file));
    }
    for file in STANDINS {
        link(&own.join(file), &tree.join(file));
    }
    println!("cargo::rerun-if-changed=build.rs");
}

fn link(from: &Path, to: &Path) {
    assert!(from.exists(), "{} is not there", from.display());
    println!("cargo::rerun-if-changed={}", from.display());
    std::os::unix::fs::symlink(from, to).expect("a link can be made");
}
