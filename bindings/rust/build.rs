//! Links target/staticlib/libexports.a, which `tools/build exports` writes.

fn main() {
    let root = concat!(env!("CARGO_MANIFEST_DIR"), "/../..");
    println!("cargo:rustc-link-search=native={root}/target/staticlib");
    println!("cargo:rustc-link-lib=static=exports");
    println!("cargo:rerun-if-changed={root}/target/staticlib/libexports.a");
}
