//! The chains of digests end where they are known to end, on both sides.

use wickslate_conformance::chains::{ends, ENDS};
use wickslate_conformance::settings::amount;
use wickslate_conformance::wickslate;
use wickslate_reference::{digest, Variant, VARIANTS};

/// Follows every variant's chain.
fn expect_ends(digest: impl Fn(&Variant, &[u8]) -> Vec<u8>) {
    let count = amount(2, 1);
    for (variant, known) in VARIANTS.iter().zip(ENDS) {
        let given = ends(|message| digest(variant, message), count);
        assert_eq!(given, known[..count], "{}", variant.name);
    }
}

#[test]
fn chains_of_the_archive() {
    expect_ends(|variant, message| {
        let mut out = vec![0; variant.digest_bytes()];
        assert!(wickslate::hash(variant.number, message, 0, &mut out).is_done());
        out
    });
}

#[test]
fn chains_of_the_rust_version() {
    expect_ends(|variant, message| digest(variant.number, message).expect("a short message"));
}
