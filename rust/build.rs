//! Links the static library `exported`, which `rt lib` in crates/exported builds beforehand.

use std::env;
use std::path::PathBuf;

/// Finds the archive and tells cargo to link it, or stops with what to do.
fn main() {
    println!("cargo:rerun-if-env-changed=DUCKBULLION_LIB");
    let directory = match env::var_os("DUCKBULLION_LIB") {
        Some(named) => PathBuf::from(named),
        None => {
            let here =
                env::var_os("CARGO_MANIFEST_DIR").expect("cargo names the crate's directory");
            PathBuf::from(here)
                .join("..")
                .join("crates")
                .join("exported")
                .join("out")
        }
    };
    let archive = directory.join("libexported.a");
    println!("cargo:rerun-if-changed={}", archive.display());
    if !archive.is_file() {
        eprintln!(
            "{} is not there: run `rt lib` in crates/exported first",
            archive.display()
        );
        std::process::exit(1);
    }
    println!("cargo:rustc-link-search=native={}", directory.display());
    println!("cargo:rustc-link-lib=static=exported");
}
