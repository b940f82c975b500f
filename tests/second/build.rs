//! Links `compare_depot`, and nothing else, with `libdepot_c.a` in the folder that DEPOT_LIB_DIR
//! names. Without the variable the package builds with no archive.

use std::env;
use std::fs;
use std::path::Path;

const VARIABLE: &str = "DEPOT_LIB_DIR";

fn main() {
    println!("cargo:rerun-if-changed=build.rs");
    println!("cargo:rerun-if-env-changed={VARIABLE}");
    println!("cargo:rustc-check-cfg=cfg(depot_linked)");
    if let Some(folder) = env::var_os(VARIABLE) {
        link(&Path::new(&folder).join("libdepot_c.a"));
    }
}

fn link(archive: &Path) {
    let archive = fs::canonicalize(archive)
        .unwrap_or_else(|error| panic!("{VARIABLE}: {}: {error}", archive.display()));
    let archive = archive.display();
    println!("cargo:rerun-if-changed={archive}");
    println!("cargo:rustc-cfg=depot_linked");
    println!("cargo:rustc-link-arg-bin=compare_depot={archive}");
}
