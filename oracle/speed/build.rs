//! Links the archive that `host/archive` writes, or the one in the folder `LUCIA_ARCHIVE`.

use std::env;

fn main() {
    let own = concat!(env!("CARGO_MANIFEST_DIR"), "/../../target/staticlib");
    let archive = env::var("LUCIA_ARCHIVE").unwrap_or(own.into());
    println!("cargo::rerun-if-env-changed=LUCIA_ARCHIVE");
    println!("cargo::rustc-link-search=native={archive}");
    println!("cargo::rustc-link-lib=static=executor");
    println!("cargo::rerun-if-changed={archive}/libexecutor.a");
}
