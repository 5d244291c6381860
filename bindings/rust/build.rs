//! Links the static libraries that tools/staticlib writes.

use std::path::Path;

fn main() {
    let root = Path::new(env!("CARGO_MANIFEST_DIR")).join("../..");
    let archives = root.join("target/staticlib");
    println!("cargo:rustc-link-search=native={}", archives.display());
    for name in ["tag_code", "tag_index"] {
        let archive = archives.join(format!("lib{name}.a"));
        println!("cargo:rerun-if-changed={}", archive.display());
        assert!(
            archive.is_file(),
            "{} is not there: `tools/staticlib {name}` writes it",
            archive.display()
        );
        println!("cargo:rustc-link-lib=static={name}");
    }
}
