//! Links the static library, the copy that checks nothing, and such a copy of an
//! earlier library if there is one, as benches/run has put them.

use std::path::Path;

fn main() {
    let root = Path::new(env!("CARGO_MANIFEST_DIR")).join("..");
    let archives = root.join("target/benches");
    println!("cargo:rustc-link-search=native={}", archives.display());
    println!("cargo:rustc-link-lib=static=tag_index");
    println!("cargo:rustc-link-lib=static=unchecked");
    if cfg!(feature = "before") {
        println!("cargo:rustc-link-lib=static=before");
    }
    println!("cargo:rerun-if-changed={}", archives.display());
}
