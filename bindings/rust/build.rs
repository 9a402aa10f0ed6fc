//! Where the archive is: FUTTOCKFIG_LIB_DIR, or lib of the prefix where tools/install put the crate, or
//! crates/futtockfig/out of the repository, where `tools/built --make futtockfig` writes it.

use std::env;
use std::path::PathBuf;

fn main() {
    let dir = match env::var_os("FUTTOCKFIG_LIB_DIR") {
        Some(dir) => PathBuf::from(dir),
        None => {
            let here = PathBuf::from(env::var_os("CARGO_MANIFEST_DIR").unwrap());
            let installed = here.join("../../../lib");
            if installed.join("libfuttockfig.a").exists() {
                installed
            } else {
                here.join("../../crates/futtockfig/out")
            }
        }
    };
    println!("cargo:rerun-if-changed=build.rs");
    println!("cargo:rerun-if-env-changed=FUTTOCKFIG_LIB_DIR");
    println!("cargo:rerun-if-changed={}", dir.join("libfuttockfig.a").display());
    println!("cargo:rustc-link-search=native={}", dir.display());
    println!("cargo:rustc-link-lib=static=futtockfig");
}
