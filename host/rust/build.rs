//! Finds the archive `libmask.a` and has it linked. It lies in the folder that the variable
//! `MASK_ARCHIVE_DIR` names, else in `target/staticlib` of the repository.

use std::env;
use std::path::PathBuf;

const FOLDER: &str = "MASK_ARCHIVE_DIR";

fn main() {
    println!("cargo:rerun-if-changed=build.rs");
    println!("cargo:rerun-if-env-changed={FOLDER}");
    let folder = archive_folder();
    let archive = folder.join("libmask.a");
    println!("cargo:rerun-if-changed={}", archive.display());
    if env::var("CARGO_CFG_TARGET_ARCH").as_deref() != Ok("x86_64") {
        println!("cargo:warning=libmask.a is for x86-64: only `cargo test --lib` links here");
    } else if !archive.is_file() {
        println!(
            "cargo:warning={} is missing: make it with `tools/library`, or name its folder in \
             {FOLDER}; only `cargo test --lib` links without it",
            archive.display()
        );
    } else {
        println!("cargo:rustc-link-search=native={}", folder.display());
        println!("cargo:rustc-link-lib=static=mask");
    }
}

fn archive_folder() -> PathBuf {
    match env::var_os(FOLDER) {
        Some(folder) => PathBuf::from(folder),
        None => {
            let here = env::var_os("CARGO_MANIFEST_DIR").expect("cargo says where the crate is");
            PathBuf::from(here).join("../../target/staticlib")
        }
    }
}
