//! Finds libborvukhai.a and links it: in the folder that BORVUKHAI_LIB_DIR names; else, for x86-64, in
//! target/staticlib/ at the top of the repository, where bindings/library is run if the library is missing or
//! older than a source, and the toolchain is on the path; else in target/port/TARGET/, where bindings/port/build puts
//! it.

use std::env;
use std::path::{Path, PathBuf};
use std::process::{Command, Stdio};
use std::time::{Instant, SystemTime};

const LIBRARY: &str = "libborvukhai.a";
const HOW: &str = "build it with `bindings/library` at the top of the repository, or name its folder in BORVUKHAI_LIB_DIR";

fn main() {
    let manifest = env::var_os("CARGO_MANIFEST_DIR").expect("cargo names the manifest's folder");
    let top = Path::new(&manifest).join("../..");
    println!("cargo::rerun-if-env-changed=BORVUKHAI_LIB_DIR");
    let (folder, how) = match env::var_os("BORVUKHAI_LIB_DIR") {
        Some(named) if !named.is_empty() => (top.join(named), HOW.into()),
        _ if for_x86_64() => (built(&top), HOW.into()),
        _ => ported(&top),
    };
    let library = folder.join(LIBRARY);
    println!("cargo::rerun-if-changed={}", library.display());
    if !library.is_file() {
        println!("cargo::error=no {}: {how}", library.display());
        return;
    }
    if let Some(source) = newer_source(&top, &library) {
        println!("cargo::warning=stale: {} is newer than {}, which is linked as it is", source.display(), library.display());
    }
    println!("cargo::rustc-link-search=native={}", folder.display());
    println!("cargo::rustc-link-lib=static=borvukhai");
}

fn for_x86_64() -> bool {
    env::var("CARGO_CFG_TARGET_ARCH").is_ok_and(|arch| arch == "x86_64")
}

/// The folder of another processor's library, and how it is filled.
fn ported(top: &Path) -> (PathBuf, String) {
    let target = env::var("TARGET").expect("cargo names the target");
    let how = format!("build it with `bindings/port/build {target}`, or name its folder in BORVUKHAI_LIB_DIR");
    (top.join("target/port").join(target), how)
}

/// The folder that the toolchain writes the library to, written now if it has none, or one that is older than a source.
fn built(top: &Path) -> PathBuf {
    let folder = top.join("target/staticlib");
    println!("cargo::rerun-if-changed={}", top.join("crates").display());
    if !folder.join(LIBRARY).is_file() || newer_source(top, &folder.join(LIBRARY)).is_some() {
        prove(top);
    }
    folder
}

/// Proves the library and writes it. A toolchain that is not there, or fails, leaves the folder as it is. Its output
/// is no word to cargo.
fn prove(top: &Path) {
    println!("cargo::warning=proving libborvukhai.a: `bindings/library` takes minutes where crates are not proved yet");
    let begun = Instant::now();
    let proved = Command::new(top.join("bindings/library")).stdout(Stdio::null()).status();
    let how = if proved.is_ok_and(|status| status.success()) { "took" } else { "failed after" };
    println!("cargo::warning=`bindings/library` {how} {} s", begun.elapsed().as_secs());
}

/// A source of the library that is newer than it, if there is one.
fn newer_source(top: &Path, library: &Path) -> Option<PathBuf> {
    let made = changed(library)?;
    let crates = std::fs::read_dir(top.join("crates")).ok()?;
    crates.flatten().flat_map(|of| sources(&of.path().join("src"))).find(|source| changed(source).is_some_and(|at| at > made))
}

fn sources(folder: &Path) -> Vec<PathBuf> {
    std::fs::read_dir(folder).map(|files| files.flatten().map(|file| file.path()).collect()).unwrap_or_default()
}

fn changed(file: &Path) -> Option<SystemTime> {
    file.metadata().ok()?.modified().ok()
}
