//! The files of the repository, by their paths in it.

use std::fs;
use std::path::PathBuf;

pub fn path(name: &str) -> PathBuf {
    let reference = PathBuf::from(env!("CARGO_MANIFEST_DIR"));
    reference.join("..").join(name)
}

pub fn read(name: &str) -> Vec<u8> {
    fs::read(path(name)).unwrap_or_else(|error| panic!("{name}: {error}"))
}

pub fn text(name: &str) -> String {
    String::from_utf8(read(name)).unwrap()
}
