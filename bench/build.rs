//! Hands the static library to the linker, for the two programs alone: the tests of the plain Rust parts do without it.
use std::env;
use std::path::PathBuf;

fn main() {
    println!("cargo:rerun-if-env-changed=JIGSORREL_LIB");
    let archive = folder().join("libfirmware.a");
    println!("cargo:rerun-if-changed={}", archive.display());
    println!("cargo:rustc-link-arg-bins={}", archive.display());
    let level = env::var("OPT_LEVEL").expect("cargo tells how it optimizes");
    println!("cargo:rustc-env=JIGSORREL_OPT_LEVEL={level}");
}

fn folder() -> PathBuf {
    if let Some(folder) = env::var_os("JIGSORREL_LIB") {
        return PathBuf::from(folder);
    }
    let here = env::var_os("CARGO_MANIFEST_DIR").expect("cargo tells where the package is");
    PathBuf::from(here).join("../crates/firmware/out")
}
