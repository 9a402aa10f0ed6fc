//! Links libfuttockfig.a and libby_hand.a. `bench/run` says where they are.

use std::env;

fn main() {
    println!("cargo:rerun-if-changed=build.rs");
    for (name, dir) in [("futtockfig", "FUTTOCKFIG_LIB_DIR"), ("by_hand", "BY_HAND_LIB_DIR")] {
        println!("cargo:rerun-if-env-changed={dir}");
        let dir = env::var(dir).unwrap_or_else(|_| panic!("{dir} is not set; use bench/run"));
        println!("cargo:rerun-if-changed={dir}/lib{name}.a");
        println!("cargo:rustc-link-search=native={dir}");
        println!("cargo:rustc-link-lib=static={name}");
    }
}
