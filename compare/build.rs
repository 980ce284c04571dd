//! Links the proved library where the feature `linked` asks for it.

use std::path::Path;

fn main() {
    println!("cargo::rerun-if-changed=build.rs");
    if std::env::var_os("CARGO_FEATURE_LINKED").is_none() {
        return;
    }
    let folder = Path::new(env!("CARGO_MANIFEST_DIR")).join("../crates/linked/out");
    let archive = folder.join("liblinked.a");
    println!("cargo::rerun-if-changed={}", archive.display());
    if !archive.is_file() {
        println!("cargo::error=crates/linked/out/liblinked.a is missing: run `rt lib` in crates/linked");
        return;
    }
    println!("cargo::rustc-link-search=native={}", folder.display());
    println!("cargo::rustc-link-lib=static=linked");
}
