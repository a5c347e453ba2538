//! Writes the cases of the proved program `vectors` beside it: the calls that
//! it reads, and what it prints.

use std::path::Path;
use std::{fs, io};

use wickslate_reference::cases;

fn main() -> io::Result<()> {
    let folder = Path::new(env!("CARGO_MANIFEST_DIR")).join("../crates/vectors");
    let cases = cases();
    fs::write(folder.join("stdin"), cases.input())?;
    fs::write(folder.join("stdout"), cases.output())
}
