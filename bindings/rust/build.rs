//! Links the proved library: the archive that VINEGARSPIT_ARCHIVE names, or the one that tools/build_library makes in this repository.

use std::path::{Path, PathBuf};

fn main() {
    let folder = std::env::var("CARGO_MANIFEST_DIR").expect("cargo sets it");
    let archive = match std::env::var_os("VINEGARSPIT_ARCHIVE") {
        Some(path) => PathBuf::from(path),
        None => Path::new(&folder).join("../../target/staticlib/libembed.a"),
    };
    println!("cargo:rerun-if-env-changed=VINEGARSPIT_ARCHIVE");
    println!("cargo:rerun-if-changed={}", archive.display());
    let name = archive.file_stem().and_then(|stem| stem.to_str()).and_then(|stem| stem.strip_prefix("lib"));
    match (archive.canonicalize(), name) {
        (Ok(path), Some(name)) => {
            println!("cargo:rustc-link-search=native={}", path.parent().expect("a file is in a folder").display());
            println!("cargo:rustc-link-lib=static={name}");
        }
        _ => panic!("{}: no archive lib*.a; tools/build_library archive makes one, and VINEGARSPIT_ARCHIVE names another", archive.display()),
    }
}
