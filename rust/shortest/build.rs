//! Links the proved library, `libcapi.a`, from the folder `SHORTEST_LIB` (a
//! full path) or from the repository's `target/staticlib`, where
//! `tools/build` writes it.

use std::env;
use std::path::PathBuf;

fn main() {
    println!("cargo::rerun-if-env-changed=SHORTEST_LIB");
    let package = PathBuf::from(env::var_os("CARGO_MANIFEST_DIR").unwrap());
    let folder = match env::var_os("SHORTEST_LIB") {
        Some(folder) => PathBuf::from(folder),
        None => package.join("../../target/staticlib"),
    };
    let archive = folder.join("libcapi.a");
    println!("cargo::rerun-if-changed={}", archive.display());
    if !archive.exists() {
        println!(
            "cargo::error=no {}: `tools/build` makes it",
            archive.display()
        );
    }
    println!("cargo::rustc-link-search=native={}", folder.display());
    println!("cargo::rustc-link-lib=static=capi");
    println!("cargo::rustc-env=LIBRARY={}", archive.display());
}
