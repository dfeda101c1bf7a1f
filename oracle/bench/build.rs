//! Links the archive that `host/archive reader` writes.

fn main() {
    let archive = concat!(env!("CARGO_MANIFEST_DIR"), "/../../target/staticlib");
    println!("cargo::rustc-link-search=native={archive}");
    println!("cargo::rustc-link-lib=static=reader");
    println!("cargo::rerun-if-changed={archive}/libreader.a");
}
