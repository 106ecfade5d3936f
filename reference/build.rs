//! Finds the static library: YELANSUB_ARCHIVE_DIR, or target/staticlib at the repository's root.

use std::env;
use std::path::PathBuf;

fn main() {
    println!("cargo:rerun-if-env-changed=YELANSUB_ARCHIVE_DIR");
    if env::var_os("CARGO_FEATURE_LIBRARY").is_none() {
        return;
    }
    let here = PathBuf::from(env::var("CARGO_MANIFEST_DIR").expect("cargo sets this"));
    let folder = env::var_os("YELANSUB_ARCHIVE_DIR")
        .map(PathBuf::from)
        .unwrap_or_else(|| here.join("../target/staticlib"));
    let archive = folder.join("libyelansub.a");
    assert!(
        archive.is_file(),
        "{} is missing: build it with `scripts/build` at the repository's root",
        archive.display()
    );
    println!("cargo:rerun-if-changed={}", archive.display());
    println!("cargo:rustc-link-search=native={}", folder.display());
    println!("cargo:rustc-link-lib=static=yelansub");
}
