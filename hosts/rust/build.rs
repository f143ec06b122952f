//! Links the port's three static libraries `exports`, `exports_play` and `exports_replay`, which `tools/archives` makes.

fn main() {
    let lib = concat!(env!("CARGO_MANIFEST_DIR"), "/../../target/staticlib");
    println!("cargo:rustc-link-search=native={lib}");
    for name in ["exports", "exports_play", "exports_replay"] {
        println!("cargo:rustc-link-lib=static={name}");
        println!("cargo:rerun-if-changed={lib}/lib{name}.a");
    }
}
