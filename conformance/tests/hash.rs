//! Whole messages: every short length, the edges of blocks, long messages,
//! and the refusals 1, 4, 5.

use wickslate_conformance::compare::hash;
use wickslate_conformance::make::{block_edges, result_bytes, UNKNOWN};
use wickslate_conformance::random::Random;
use wickslate_conformance::settings::amount;
use wickslate_conformance::wickslate;
use wickslate_reference::{Variant, MESSAGE_LIMIT, VARIANTS};

/// Hashes a random message of `bytes` bytes on both sides, with seven bytes of
/// output after the result.
fn expect_same(random: &mut Random, variant: &Variant, bytes: usize, wanted: u32) {
    let message = random.bytes(bytes);
    let out = random.bytes(result_bytes(variant, wanted) + 7);
    let (answer, after) = hash(variant.number, &message, wanted, &out);
    assert_eq!(answer, 0, "{} of {bytes} bytes", variant.name);
    assert_eq!(after[after.len() - 7..], out[out.len() - 7..]);
}

#[test]
fn every_short_length() {
    let mut random = Random::of_test("every_short_length");
    for bytes in 0..=amount(300, 20) {
        for variant in &VARIANTS {
            expect_same(&mut random, variant, bytes, 0);
        }
    }
}

#[test]
fn edges_of_blocks() {
    let mut random = Random::of_test("edges_of_blocks");
    for variant in &VARIANTS {
        let edges = block_edges(variant);
        for &bytes in &edges[..amount(edges.len(), 20)] {
            expect_same(&mut random, variant, bytes, 1);
        }
    }
}

#[test]
fn long_messages() {
    let mut random = Random::of_test("long_messages");
    for variant in &VARIANTS {
        let bytes = amount(20_000, 300) + random.below(100);
        expect_same(&mut random, variant, bytes, 0);
    }
}

#[test]
fn any_number_but_zero_asks_for_the_end_state() {
    let mut random = Random::of_test("any_number_but_zero");
    for variant in &VARIANTS {
        for wanted in [
            1,
            2,
            3,
            127,
            128,
            254,
            255,
            256,
            1 << 16,
            1 << 24,
            1 << 31,
            u32::MAX,
        ] {
            expect_same(&mut random, variant, 3, wanted);
        }
    }
}

/// The answer to a message of zeros on both sides.
fn refusal(variant: u32, message: &[u8], wanted: u32, out_bytes: usize) -> u32 {
    hash(variant, message, wanted, &vec![0x5e; out_bytes]).0
}

#[test]
fn unknown_variants_come_first() {
    let long = vec![0; MESSAGE_LIMIT + 1];
    for number in UNKNOWN {
        for wanted in [0, 1] {
            assert_eq!(refusal(number, b"abc", wanted, 36), 1);
            assert_eq!(refusal(number, &long, wanted, 36), 1, "and too long");
            assert_eq!(refusal(number, b"abc", wanted, 0), 1, "and too short");
            assert_eq!(refusal(number, &long, wanted, 0), 1, "and both");
        }
    }
}

#[test]
fn too_long_comes_before_an_output_too_short() {
    let long = vec![0; MESSAGE_LIMIT + 2];
    for variant in &VARIANTS {
        for wanted in [0, 1] {
            for message in [&long[1..], &long[..]] {
                assert_eq!(refusal(variant.number, message, wanted, 36), 4);
                assert_eq!(refusal(variant.number, message, wanted, 0), 4);
            }
        }
    }
}

#[test]
fn outputs_one_byte_too_short() {
    for variant in &VARIANTS {
        for wanted in [0, 1] {
            let fits = result_bytes(variant, wanted);
            for short in [0, 1, fits - 1] {
                assert_eq!(refusal(variant.number, b"abc", wanted, short), 5);
            }
            assert_eq!(refusal(variant.number, b"abc", wanted, fits), 0);
        }
    }
}

/// The longest message passes the check of its length: what is refused is the
/// output. To hash it takes too long here.
#[test]
fn the_longest_message_is_not_too_long() {
    let longest = vec![0; MESSAGE_LIMIT];
    for variant in &VARIANTS {
        for wanted in [0, 1] {
            let answer = wickslate::hash(variant.number, &longest, wanted, &mut [0; 9]);
            assert_eq!(answer.0, 5, "{}", variant.name);
        }
    }
}
