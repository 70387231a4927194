//! Links the proved engine, which `tools/staticlib` writes.

use std::path::Path;

fn main() {
    let folder = Path::new(env!("CARGO_MANIFEST_DIR")).join("../../target/staticlib");
    let archive = folder.join("libtouchchart.a");
    assert!(
        archive.exists(),
        "there is no libtouchchart.a: run `tools/staticlib` in the repository's root first"
    );
    println!("cargo:rerun-if-changed={}", archive.display());
    println!("cargo:rustc-link-search=native={}", folder.display());
    println!("cargo:rustc-link-lib=static=touchchart");
}
