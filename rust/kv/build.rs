//! Finds the archive of the proved library.

use std::env::var_os;
use std::path::{Path, PathBuf};
use std::process::exit;

fn folder() -> PathBuf {
    let here = Path::new(env!("CARGO_MANIFEST_DIR"));
    match var_os("KV_ARCHIVE") {
        Some(folder) => folder.into(),
        None => here.join("../../target/native"),
    }
}

fn main() {
    let folder = folder();
    let archive = folder.join("libkv.a");
    println!("cargo:rerun-if-env-changed=KV_ARCHIVE");
    println!("cargo:rerun-if-changed={}", archive.display());
    if !archive.is_file() {
        eprintln!(
            "kv: there is no {}. Prove and build it with `tools/install PREFIX` from the \
             repository's root, or name the folder that has it in the environment variable \
             KV_ARCHIVE.",
            archive.display()
        );
        exit(1);
    }
    println!("cargo:rustc-link-search=native={}", folder.display());
    println!("cargo:rustc-link-lib=static=kv");
}
