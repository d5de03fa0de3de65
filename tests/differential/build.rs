//! Finds libborvukhai.a: in the folder that BORVUKHAI_LIB_DIR names, a relative one from the repository's top, else in target/staticlib there.

use std::path::{Path, PathBuf};
use std::time::SystemTime;

fn main() {
    println!("cargo:rerun-if-env-changed=BORVUKHAI_LIB_DIR");
    let here = std::env::var("CARGO_MANIFEST_DIR").expect("cargo sets CARGO_MANIFEST_DIR");
    let named = std::env::var("BORVUKHAI_LIB_DIR").unwrap_or_default();
    let folder = if named.is_empty() { "target/staticlib" } else { &named };
    let folder = Path::new(&here).join("../..").join(folder);
    let library = folder.join("libborvukhai.a");
    println!("cargo:rerun-if-changed={}", library.display());
    if !library.is_file() {
        eprintln!("no {}: run bindings/library at the repository's top, or name its folder in BORVUKHAI_LIB_DIR", library.display());
        std::process::exit(1);
    }
    if let Some(source) = newer_source(&Path::new(&here).join("../../crates"), &library) {
        println!("cargo:warning=stale: {} is newer than {}, which is linked as it is", source.display(), library.display());
    }
    println!("cargo:rustc-link-search=native={}", folder.display());
    println!("cargo:rustc-link-lib=static=borvukhai");
}

/// A source of the library that is newer than it, if there is one.
fn newer_source(crates: &Path, library: &Path) -> Option<PathBuf> {
    let made = changed(library)?;
    let sources = std::fs::read_dir(crates).ok()?.flatten().map(|of| of.path().join("src/lib.rt"));
    sources.into_iter().find(|source| changed(source).is_some_and(|at| at > made))
}

fn changed(file: &Path) -> Option<SystemTime> {
    file.metadata().ok()?.modified().ok()
}
