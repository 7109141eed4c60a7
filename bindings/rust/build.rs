//! Links libcapi.a (`tools/archive capi`) from the folder TAMQORET_LIB, or from target/staticlib of the repository.

use std::path::PathBuf;

fn main() {
    let beside = || PathBuf::from(env!("CARGO_MANIFEST_DIR")).join("../../target/staticlib");
    let folder = std::env::var_os("TAMQORET_LIB").map_or_else(beside, PathBuf::from);
    let archive = folder.join("libcapi.a");
    println!("cargo::rerun-if-env-changed=TAMQORET_LIB");
    println!("cargo::rerun-if-changed={}", archive.display());
    if !archive.is_file() {
        println!("cargo::error=no {}: run `tools/archive capi`, or name its folder in TAMQORET_LIB", archive.display());
    }
    println!("cargo::rustc-link-search=native={}", folder.display());
    println!("cargo::rustc-link-lib=static=capi");
}
