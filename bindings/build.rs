//! Links the planner's static library.

mod staticlib;

use std::env;
use std::path::Path;

fn main() {
    println!("cargo:rerun-if-changed=build.rs");
    println!("cargo:rerun-if-changed=staticlib.rs");
    let root = Path::new(&env::var("CARGO_MANIFEST_DIR").unwrap()).join("..").canonicalize().unwrap();
    let archive = staticlib::link(&root, "tugrokt");
    // Packages that depend on this one find it in DEP_TUGROKT_LIBRARY.
    println!("cargo:library={}", archive.display());
}
