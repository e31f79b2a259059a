//! What the proved programs print for their vectors is what the model answers to the same input: the model was written from
//! the rules alone, so neither side's expectation is its own output. The headers of data phases stand here as bytes, laid out by
//! hand from RFC 7143's pictures.

mod data;
mod header;
mod login;

use std::fs;
use std::path::PathBuf;

/// A file of a program's crate.
fn file(program: &str, name: &str) -> String {
    let path = PathBuf::from(env!("CARGO_MANIFEST_DIR"))
        .join("../../crates")
        .join(program)
        .join(name);
    fs::read_to_string(&path).unwrap_or_else(|why| panic!("{}: {why}", path.display()))
}

/// Line by line, so that the first difference is told.
fn assert_same(ours: &str, theirs: &str) {
    for (at, (ours, theirs)) in ours.lines().zip(theirs.lines()).enumerate() {
        assert_eq!(ours, theirs, "line {}", at + 1);
    }
    assert_eq!(ours.lines().count(), theirs.lines().count());
}
