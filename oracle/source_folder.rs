// Where optd's source lies: the folder of OPTD_SRC, or the project's own copy beside the repository.
// Both a copy of docs/src and a checkout of cmu-db/optd hold the files under optd/core/src.

pub fn core_src() -> std::path::PathBuf {
    println!("cargo::rerun-if-env-changed=OPTD_SRC");
    println!("cargo::rerun-if-changed=../source_folder.rs");
    let package = std::path::PathBuf::from(std::env::var("CARGO_MANIFEST_DIR").unwrap());
    let top = package.join("../..");
    // A worktree may lie one folder deeper than the repository.
    let places = match std::env::var("OPTD_SRC") {
        Ok(folder) => vec![top.join(&folder), top.join("oracle").join(folder)],
        Err(_) => vec![top.join("../shared/docs/src"), top.join("../../shared/docs/src")],
    };
    for place in &places {
        let found = place.join("optd/core/src");
        if found.join("analysis/logical_facts.rs").exists() {
            return found.canonicalize().expect("a folder that exists has a path");
        }
    }
    panic!("optd's source is in none of {places:?}: set OPTD_SRC to docs/src or to a checkout of cmu-db/optd")
}
