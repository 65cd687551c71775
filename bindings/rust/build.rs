//! Tells the linker where libstation.a is: in the folder that `DROBULETS_LIB` names, else in the repository's target/staticlib.

use std::env;
use std::path::{Path, PathBuf};

fn main() {
    println!("cargo:rerun-if-changed=build.rs");
    println!("cargo:rerun-if-env-changed=DROBULETS_LIB");
    if env::var_os("CARGO_FEATURE_ARCHIVE").is_none() {
        return;
    }
    let built_here = || Path::new(env!("CARGO_MANIFEST_DIR")).join("../../target/staticlib");
    let folder = env::var_os("DROBULETS_LIB").map_or_else(built_here, PathBuf::from);
    let archive = folder.join("libstation.a");
    assert!(
        archive.is_file(),
        "there is no {}: `tests/archive` makes it, and DROBULETS_LIB names its folder",
        archive.display()
    );
    println!("cargo:rerun-if-changed={}", archive.display());
    println!("cargo:rustc-link-search=native={}", folder.display());
    println!("cargo:rustc-link-lib=static=station");
}
