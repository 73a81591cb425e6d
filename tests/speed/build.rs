//! Compiles the plain search, which is in C, as a caller's own would be.

use std::path::PathBuf;
use std::process::Command;

const SOURCE: &str = "src/search.c";

/// The loop is aligned, so that its time does not depend on where it is linked.
const OPTIONS: [&str; 9] = [
    "-std=c99",
    "-O2",
    "-falign-loops=64",
    "-Wall",
    "-Wextra",
    "-Werror",
    "-pedantic",
    "-fPIC",
    "-c",
];

fn main() {
    let folder = PathBuf::from(variable("OUT_DIR").expect("cargo sets it"));
    let object = folder.join("search.o");
    let compiler = variable("CC").unwrap_or("cc".into());
    let mut words = compiler.split_whitespace();
    let mut command = Command::new(words.next().expect("it is not blank"));
    command.args(words).args(OPTIONS).arg(SOURCE);
    command.arg("-o").arg(&object);
    let compiled = command.status().is_ok_and(|status| status.success());
    assert!(compiled, "{compiler} does not compile {SOURCE}");
    println!("cargo:rustc-link-arg={}", object.display());
    println!("cargo:rerun-if-changed={SOURCE}");
    println!("cargo:rerun-if-env-changed=CC");
    println!("cargo:rerun-if-changed=build.rs");
}

fn variable(name: &str) -> Option<String> {
    std::env::var(name).ok().filter(|value| !value.is_empty())
}
