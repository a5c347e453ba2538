//! Prints the stored digests of the chains, from the Rust version built apart.

use wickslate_conformance::chains::{ends, LINKS};
use wickslate_reference::{digest, VARIANTS};

fn main() {
    for variant in &VARIANTS {
        let hash = |message: &[u8]| digest(variant.number, message).expect("a short message");
        println!("{:?}, // {}", ends(hash, LINKS.len()), variant.name);
    }
}
