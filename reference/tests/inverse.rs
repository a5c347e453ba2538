//! The permutations and their inverses undo each other.

mod generator;

use generator::Generator;
use wickslate_reference::{permute, sponges, unpermute, Variant};

const SEED: u64 = 0x2919_2005_1234_5678;
const STATES: usize = 300;

/// A random image of the variant, its spare bits zero.
fn random_image(generator: &mut Generator, variant: &Variant) -> Vec<u8> {
    let mut image = generator.bytes(variant.image_bytes());
    // Only PHOTON's images have spare bits, and those are the lowest.
    let spare = 8 * image.len() - variant.state_bits;
    image[variant.image_bytes() - 1] &= 0xff << spare;
    image
}

/// Makes one call and then the other on many states of each variant, and
/// expects the first to move the state and the second to bring it back.
fn expect_undone(calls: [fn(u32, &mut [u8]) -> u8; 2]) {
    let mut generator = Generator::new(SEED);
    for variant in sponges() {
        for _ in 0..STATES {
            let before = random_image(&mut generator, variant);
            let mut image = before.clone();
            assert_eq!(calls[0](variant.number, &mut image), 0);
            assert_ne!(image, before, "{}", variant.name);
            assert_eq!(calls[1](variant.number, &mut image), 0);
            assert_eq!(image, before, "{}", variant.name);
        }
    }
}

#[test]
fn unpermute_undoes_permute() {
    expect_undone([permute, unpermute]);
}

#[test]
fn permute_undoes_unpermute() {
    expect_undone([unpermute, permute]);
}
