//! Reads the manifest in the file `rig` and then tables from standard input,
//! and prints the counts or the refusal, as the proved program does.

use std::fs::File;
use std::io::{self, Read};

use wickslate_reference::manifest::{report, RECORD_BYTES, RECORD_LIMIT};
use wickslate_reference::BAD_MANIFEST;

fn main() -> io::Result<()> {
    let Ok(list) = manifest() else {
        println!("refused {BAD_MANIFEST}");
        return Ok(());
    };
    match report(&list, io::stdin().lock())? {
        Ok(counts) => print!("{counts}"),
        Err(refusal) => println!("refused {refusal}"),
    }
    Ok(())
}

/// The bytes of the manifest; of one that is too long, a byte too many.
fn manifest() -> io::Result<Vec<u8>> {
    let most = (RECORD_LIMIT * RECORD_BYTES) as u64;
    let mut list = Vec::new();
    File::open("rig")?.take(most + 1).read_to_end(&mut list)?;
    Ok(list)
}
