//! Plays the rows of `rows/`, the scripts of `crates/script_rows` and the script of `crates/site_cli` through the program, and
//! holds what it does to what was written down beside them.

mod rows;
mod running;
mod scripts;
mod sha256;

use std::path::PathBuf;

/// The repository's top.
fn top() -> PathBuf {
    PathBuf::from(concat!(env!("CARGO_MANIFEST_DIR"), "/../../.."))
}
