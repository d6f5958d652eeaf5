//! Links the proved library, which `tools/make host` writes to target/staticlib.
fn main() {
    let folder = concat!(env!("CARGO_MANIFEST_DIR"), "/../../staticlib");
    println!("cargo:rustc-link-search=native={folder}");
    println!("cargo:rustc-link-lib=static=host");
    println!("cargo:rerun-if-changed={folder}/libhost.a");
}
