//! Links libmorris_c.a, which `rt lib` in crates/morris_c writes into its out/. MORRIS_LIB_DIR names another folder.

use std::env;
use std::path::PathBuf;

fn main() {
    println!("cargo:rerun-if-env-changed=MORRIS_LIB_DIR");
    let folder = match env::var_os("MORRIS_LIB_DIR") {
        Some(folder) => PathBuf::from(folder),
        None => PathBuf::from(env::var_os("CARGO_MANIFEST_DIR").expect("cargo sets it")).join("../crates/morris_c/out"),
    };
    let archive = folder.join("libmorris_c.a");
    assert!(
        archive.exists(),
        "no libmorris_c.a: run `rt lib` in crates/morris_c first, or set MORRIS_LIB_DIR"
    );
    println!("cargo:rerun-if-changed={}", archive.display());
    println!("cargo:rustc-link-search=native={}", folder.display());
    println!("cargo:rustc-link-lib=static=morris_c");
}
