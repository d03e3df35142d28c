//! Finds libneon_terms.a, which tests/tools/build_library writes: in the folder that NEON_TERMS_LIB names, else in target/staticlib of this
//! repository. Without the archive nothing can be linked; `cargo check` and `cargo doc` need none, so its absence is a warning here.
use std::path::PathBuf;

fn main() {
    println!("cargo::rerun-if-env-changed=NEON_TERMS_LIB");
    let here = PathBuf::from(std::env::var("CARGO_MANIFEST_DIR").expect("cargo sets it"));
    let folder = std::env::var("NEON_TERMS_LIB").map_or_else(|_| here.join("../../../target/staticlib"), PathBuf::from);
    let archive = folder.join("libneon_terms.a");
    if !archive.exists() {
        println!("cargo::warning=there is no {}: tests/tools/build_library writes it, and NEON_TERMS_LIB names another folder", archive.display());
    }
    println!("cargo::rerun-if-changed={}", archive.display());
    println!("cargo::rustc-link-search=native={}", folder.display());
    println!("cargo::rustc-link-lib=static=neon_terms");
}
