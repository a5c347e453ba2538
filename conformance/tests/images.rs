//! The permutations and their inverses on images, and the refusals 1, 17, 6.

use wickslate_conformance::compare::permute;
use wickslate_conformance::make::{bits_from, image, lesamnta_lw, UNKNOWN};
use wickslate_conformance::random::Random;
use wickslate_conformance::settings::amount;
use wickslate_reference::sponges;

#[test]
fn random_images_both_ways() {
    let mut random = Random::of_test("random_images_both_ways");
    for variant in sponges() {
        for _ in 0..amount(400, 10) {
            let before = image(&mut random, variant);
            for back in [false, true] {
                let (answer, after) = permute(variant.number, &before, back);
                assert_eq!(answer, 0);
                assert_ne!(after, before);
                assert_eq!(permute(variant.number, &after, !back), (0, before.clone()));
            }
        }
    }
}

/// The zero image, and each image with a single bit.
#[test]
fn images_of_one_bit() {
    for variant in sponges() {
        let zero = vec![0; variant.image_bytes()];
        assert_eq!(permute(variant.number, &zero, false).0, 0);
        for (byte, bit) in bits_from(variant.family, 0, zero.len()) {
            let mut single = zero.clone();
            single[byte] = bit;
            let spare = variant.state_bits % 8 != 0 && byte + 1 == zero.len() && bit < 16;
            for back in [false, true] {
                let (answer, _) = permute(variant.number, &single, back);
                assert_eq!(answer, if spare { 6 } else { 0 });
            }
        }
    }
}

#[test]
fn wrong_lengths_are_no_images() {
    let mut random = Random::of_test("wrong_lengths_are_no_images");
    for variant in sponges() {
        let wrong = (0..=40).filter(|&bytes| bytes != variant.image_bytes());
        for bytes in wrong.chain([255, 256, 4096]) {
            for image in [vec![0; bytes], random.bytes(bytes)] {
                for back in [false, true] {
                    assert_eq!(permute(variant.number, &image, back).0, 6);
                }
            }
        }
    }
}

/// Of its own length or any other: it is no sponge.
#[test]
fn lesamnta_lw_has_no_permutation() {
    let mut random = Random::of_test("lesamnta_lw_has_no_permutation");
    for bytes in (0..=40).chain([255, 256, 4096]) {
        for image in [vec![0; bytes], random.bytes(bytes)] {
            for back in [false, true] {
                let given = permute(lesamnta_lw().number, &image, back);
                assert_eq!(given, (17, image.clone()));
            }
        }
    }
}

#[test]
fn unknown_variants_come_before_bad_images() {
    for number in std::iter::once(0).chain(12..=1024).chain(UNKNOWN) {
        for back in [false, true] {
            for bytes in [0, 11, 13, 36, 37] {
                assert_eq!(permute(number, &vec![0; bytes], back).0, 1);
            }
            assert_eq!(permute(number, &[0xff; 13], back).0, 1, "spare bits set");
        }
    }
}
