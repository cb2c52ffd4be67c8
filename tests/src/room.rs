//! Folders of tests outside the checkout, where `rt ci` takes no link and no other list of crates.

use std::fs;
use std::hash::{DefaultHasher, Hash, Hasher};
use std::path::PathBuf;

/// An empty folder of this name. Each checkout has its own.
pub fn outside(name: &str) -> PathBuf {
    let mut checkout = DefaultHasher::new();
    env!("ROOT").hash(&mut checkout);
    let folder = std::env::temp_dir().join(format!("tugrokt-{:016x}", checkout.finish())).join(name);
    let _ = fs::remove_dir_all(&folder);
    fs::create_dir_all(&folder).unwrap();
    folder
}
