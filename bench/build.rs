//! Links the archive that `tests/build` writes.

use std::path::Path;

fn main() {
    let folder = Path::new(env!("CARGO_MANIFEST_DIR")).join("../target/staticlib");
    let archive = folder.join("libzevgorim.a");
    if !archive.exists() {
        panic!("target/staticlib/libzevgorim.a is missing: run `tests/build` first");
    }
    println!("cargo:rerun-if-changed={}", archive.display());
    println!("cargo:rustc-link-search=native={}", folder.display());
    println!("cargo:rustc-link-lib=static=zevgorim");
}
