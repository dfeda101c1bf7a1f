//! Links `libexecutor.a`, which `host/archive` proves and writes; if it is not there, this is done first. `LUCIA_ARCHIVE` names another folder with it.

use std::{
    env, io,
    path::{Path, PathBuf},
    process::{Command, Stdio},
};

const ARCHIVE: &str = "libexecutor.a";

fn main() {
    println!("cargo::rerun-if-env-changed=LUCIA_ARCHIVE");
    match folder() {
        Ok(folder) => link(&folder),
        Err(reason) => println!("cargo::error={reason}"),
    }
}

fn link(folder: &Path) {
    println!("cargo::rerun-if-changed={}", folder.join(ARCHIVE).display());
    println!("cargo::rustc-link-search=native={}", folder.display());
    println!("cargo::rustc-link-lib=static=executor");
}

/// The folder that has the archive.
fn folder() -> Result<PathBuf, String> {
    if let Some(folder) = env::var_os("LUCIA_ARCHIVE").map(PathBuf::from) {
        return folder.canonicalize().map_err(|error| format!("LUCIA_ARCHIVE, {}: {error}", folder.display()));
    }
    let manifest = env::var_os("CARGO_MANIFEST_DIR").ok_or("cargo gives no CARGO_MANIFEST_DIR")?;
    let root = Path::new(&manifest).parent().ok_or("the crate has no folder around it")?;
    let folder = root.join("target/staticlib");
    if !folder.join(ARCHIVE).exists() {
        prove(root)?;
    }
    Ok(folder)
}

/// Proves the executor and writes the archive. What it prints goes to standard error, since cargo reads the other.
fn prove(root: &Path) -> Result<(), String> {
    let status = Command::new(root.join("host/archive"))
        .stdout(Stdio::from(io::stderr()))
        .status()
        .map_err(|error| format!("`host/archive` could not be run: {error}"))?;
    if status.success() { Ok(()) } else { Err(format!("`host/archive` failed: {status}")) }
}
