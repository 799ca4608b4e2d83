//! Links target/staticlib/libcapi.a, which `tests/build capi` writes.

use std::path::Path;

fn main() {
    let root = Path::new(env!("CARGO_MANIFEST_DIR")).join("..");
    let folder = root.join("target/staticlib");
    println!(
        "cargo:rerun-if-changed={}",
        folder.join("libcapi.a").display()
    );
    println!("cargo:rustc-link-search=native={}", folder.display());
    println!("cargo:rustc-link-lib=static=capi");
}
