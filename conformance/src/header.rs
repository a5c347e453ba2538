//! The C header as a text.

use std::fs;

use crate::programs::root;

/// The header.
pub fn text() -> String {
    fs::read_to_string(root().join("include/wickslate.h")).expect("the header")
}

/// The function that a line of the header declares, without what every name
/// begins with.
pub fn declared(line: &str) -> Option<&str> {
    let words = line.strip_prefix("WICKSLATE_CALL")?;
    let (_, name) = words.split_once(" wickslate_")?;
    name.split('(').next()
}
