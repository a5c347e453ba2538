//! The permutation and its inverse: the single permutations of Annex B
//! forward and back, and a call for each way to be refused.

use super::{hexadecimal, Cases, LESAMNTA_LW, SPONGENT_MESSAGE};
use crate::bits::{unpack, Order};
use crate::variants::{sponges, Family, Variant};
use crate::{image, permute, sponge, unpermute};

/// A call that changes an image in place, with its name.
type Operation = (&'static str, fn(u32, &mut [u8]) -> u8);

const PERMUTE: Operation = ("permute", permute);
const UNPERMUTE: Operation = ("unpermute", unpermute);

/// The permutation by look-ups on words, which takes an image that is sound.
const PERMUTE_WORDS: Operation = ("permute-words", permute);

/// A line for each call of either permutation.
pub fn add(cases: &mut Cases) {
    cases.heading("Annex B: one permutation by plain steps and by words, and back");
    for variant in sponges() {
        let before = annex_b_image(variant);
        let after = add_call(cases, PERMUTE, variant.number, &before);
        add_call(cases, PERMUTE_WORDS, variant.number, &before);
        add_call(cases, UNPERMUTE, variant.number, &after);
    }
    cases
        .heading("refused: no variant, a byte too few, a spare nibble that is not zero, no sponge");
    for (number, image) in refused_calls() {
        add_call(cases, PERMUTE, number, &image);
        add_call(cases, UNPERMUTE, number, &image);
    }
}

/// The image that Annex B permutes once: the start state with the example's
/// block, which is zero for PHOTON and begins the message for SPONGENT.
pub fn annex_b_image(variant: &Variant) -> Vec<u8> {
    let mut state = sponge::start_state(variant);
    if variant.family == Family::Spongent {
        let bits = unpack(Order::HighestFirst, SPONGENT_MESSAGE);
        sponge::xor_block(variant, &mut state, &bits[..variant.block_bits]);
    }
    image::of_state(variant, &state)
}

/// Variants and images that both permutations refuse: no variant, a byte too
/// few, a spare nibble that is not zero, and no sponge, also with a byte too
/// few.
fn refused_calls() -> [(u32, Vec<u8>); 5] {
    let mut spare = vec![0xa0; 13];
    spare[12] = 0xa1;
    [
        (0, vec![0xa0; 13]),
        (1, vec![0xa0; 12]),
        (1, spare),
        (LESAMNTA_LW, vec![0xa0; 32]),
        (LESAMNTA_LW, vec![0xa0; 31]),
    ]
}

/// Makes the call on a copy of the image, adds it, and gives the bytes after
/// the call.
fn add_call(cases: &mut Cases, operation: Operation, number: u32, image: &[u8]) -> Vec<u8> {
    let (name, call) = operation;
    let mut after = image.to_vec();
    let status = call(number, &mut after);
    let [before, changed] = [image, &after].map(hexadecimal);
    cases.add(
        format!("{name} {number} {before}"),
        format!("{status} {changed}"),
    );
    after
}
