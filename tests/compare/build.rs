//! Links the static libraries that tools/staticlib writes.

use std::path::Path;

fn main() {
    let root = Path::new(env!("CARGO_MANIFEST_DIR")).join("../..");
    let archives = root.join("target/staticlib");
    println!("cargo:rustc-link-search=native={}", archives.display());
    println!("cargo:rustc-link-lib=static=tag_code");
    println!("cargo:rustc-link-lib=static=tag_index");
    println!("cargo:rerun-if-changed={}", archives.display());
}
