//! Links the library by which the tests call the network, and tells the tests where the planner's library and the program are.
//!
//! The program is `../crates/wave/out/wave`, brought up to date by `rt run`. Where `TUGROKT_WAVE` names a program, that one is run.

#[path = "../bindings/staticlib.rs"]
mod staticlib;

use std::env;
use std::path::{Path, PathBuf};

fn main() {
    println!("cargo:rerun-if-changed=build.rs");
    println!("cargo:rerun-if-changed=../bindings/staticlib.rs");
    println!("cargo:rerun-if-env-changed=TUGROKT_WAVE");
    println!("cargo:rustc-env=LIBRARY={}", env::var("DEP_TUGROKT_LIBRARY").unwrap());
    let root = Path::new(&env::var("CARGO_MANIFEST_DIR").unwrap()).join("..").canonicalize().unwrap();
    staticlib::link(&root, "network_border");
    let program = env::var("TUGROKT_WAVE").map_or_else(|_| built(&root), PathBuf::from);
    println!("cargo:rustc-env=WAVE={}", program.display());
    println!("cargo:rustc-env=ROOT={}", root.display());
}

/// The program of the repository. `rt run` proves and links it, and runs it on an empty text.
fn built(root: &Path) -> PathBuf {
    let program = staticlib::made(root, "wave", "wave", &["run"]);
    println!("cargo:rerun-if-changed={}", program.display());
    program
}
