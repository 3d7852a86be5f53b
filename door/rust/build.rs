//! Links libdoor.a: from the folder that NIMBRA_LIB names, or from target/staticlib, where `door/build` puts it.

use std::env;
use std::path::PathBuf;

fn main() {
    println!("cargo:rerun-if-env-changed=NIMBRA_LIB");
    let here = PathBuf::from(env::var("CARGO_MANIFEST_DIR").expect("cargo names the folder"));
    let folder = env::var("NIMBRA_LIB").map(PathBuf::from).unwrap_or(here.join("../../target/staticlib"));
    let library = folder.join("libdoor.a");
    println!("cargo:rerun-if-changed={}", library.display());
    if !library.exists() {
        println!("cargo:warning={} is missing: build it (door/build)", library.display());
    }
    println!("cargo:rustc-link-search=native={}", folder.display());
    println!("cargo:rustc-link-lib=static=door");
}
