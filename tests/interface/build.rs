//! Links libsccc.a from the folder SCCC_LIB_DIR, a path seen from this crate's
//! folder; without it from build/ at the repository's root.

use std::path::{Path, PathBuf};

const ARCHIVE: &str = "libsccc.a";

fn main() {
    let here = PathBuf::from(variable("CARGO_MANIFEST_DIR").expect("cargo sets it"));
    let folder = variable("SCCC_LIB_DIR").unwrap_or("../../build".into());
    let folder = here.join(folder);
    let archive = folder.join(ARCHIVE);
    assert!(
        Path::exists(&archive),
        "no {}: build the library, or set SCCC_LIB_DIR to its folder",
        archive.display()
    );
    println!("cargo:rustc-link-search=native={}", folder.display());
    println!("cargo:rustc-link-lib=static=sccc");
    println!("cargo:rerun-if-changed={}", archive.display());
    println!("cargo:rerun-if-env-changed=SCCC_LIB_DIR");
    println!("cargo:rerun-if-changed=build.rs");
}

fn variable(name: &str) -> Option<String> {
    std::env::var(name).ok().filter(|value| !value.is_empty())
}
