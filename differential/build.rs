//! Links libpeerivolt.a: the file that PEERIVOLT_ARCHIVE names, or the one that `rt lib` writes in crates/peerivolt. A file
//! called libNAME.so is linked as a shared object.
use std::env;
use std::path::{Path, PathBuf};

/// Where the archive lies unless PEERIVOLT_ARCHIVE says otherwise, from the root of the repository.
const DEFAULT_ARCHIVE: &str = "crates/peerivolt/out/libpeerivolt.a";

/// The name by which a linker knows the archive.
fn library(archive: &Path) -> &str {
    let stem = archive.file_stem().and_then(|stem| stem.to_str());
    let name = stem.and_then(|stem| stem.strip_prefix("lib"));
    name.expect("an archive is called libNAME.a or libNAME.so")
}

fn main() {
    let package = PathBuf::from(env::var_os("CARGO_MANIFEST_DIR").expect("cargo sets it"));
    let named = match env::var_os("PEERIVOLT_ARCHIVE") {
        Some(archive) => PathBuf::from(archive),
        None => package.join("..").join(DEFAULT_ARCHIVE),
    };
    let Ok(archive) = named.canonicalize() else {
        panic!("{} is missing (set PEERIVOLT_ARCHIVE)", named.display());
    };
    let folder = archive.parent().expect("a file lies in a folder");
    println!("cargo::rerun-if-env-changed=PEERIVOLT_ARCHIVE");
    println!("cargo::rerun-if-changed={}", archive.display());
    println!("cargo::rustc-link-search=native={}", folder.display());
    let is_shared = archive.extension().is_some_and(|end| end == "so");
    let kind = if is_shared { "dylib" } else { "static" };
    println!("cargo::rustc-link-lib={kind}={}", library(&archive));
}
