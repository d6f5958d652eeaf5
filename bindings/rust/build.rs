//! Links libhost.a, which `tools/make host` writes to target/staticlib/; AMZIGHROD_LIB names another folder that has it.
use std::{env, path::PathBuf};

fn main() {
    let folder = env::var_os("AMZIGHROD_LIB").map_or_else(
        || PathBuf::from(env::var_os("CARGO_MANIFEST_DIR").expect("cargo sets it")).join("../../target/staticlib"),
        PathBuf::from,
    );
    let archive = folder.join("libhost.a");
    assert!(archive.is_file(), "no {}: run `tools/make host`, or set AMZIGHROD_LIB", archive.display());
    println!("cargo:rerun-if-env-changed=AMZIGHROD_LIB");
    println!("cargo:rerun-if-changed={}", archive.display());
    println!("cargo:rustc-link-search=native={}", folder.display());
    println!("cargo:rustc-link-lib=static=host");
}
