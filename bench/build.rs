//! Links the library of document 01's box, which `tools/archives exports_engine` makes; the crate for Rust links the others.

fn main() {
    let lib = concat!(env!("CARGO_MANIFEST_DIR"), "/../target/staticlib");
    println!("cargo:rustc-link-search=native={lib}");
    println!("cargo:rustc-link-lib=static=exports_engine");
    println!("cargo:rerun-if-changed={lib}/libexports_engine.a");
}
