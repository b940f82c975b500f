//! Links the proved calls: `libdepot_c.a` in the folder that DEPOT_LIB_DIR names.

use std::env;
use std::fs;
use std::path::Path;

fn main() {
    println!("cargo:rerun-if-changed=build.rs");
    println!("cargo:rerun-if-env-changed=DEPOT_LIB_DIR");
    let folder = env::var_os("DEPOT_LIB_DIR").expect("DEPOT_LIB_DIR names the archive's folder");
    let archive = Path::new(&folder).join("libdepot_c.a");
    let archive = fs::canonicalize(&archive)
        .unwrap_or_else(|error| panic!("DEPOT_LIB_DIR: {}: {error}", archive.display()));
    println!("cargo:rerun-if-changed={}", archive.display());
    println!("cargo:rustc-link-arg={}", archive.display());
}
