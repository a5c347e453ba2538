//! The sponge on bit strings (clauses 5.2.3 and 5.3.3), for the variants that
//! are one. A state is the list of its bits, PHOTON's from the leftmost,
//! SPONGENT's from bit 0.

use crate::bits::{unpack, Order};
use crate::variants::{Family, Variant};
use crate::{photon, spongent};

/// Why a function here panics if it is asked about Lesamnta-LW.
const NO_SPONGE: &str = "Lesamnta-LW is no sponge";

/// The state before the first block.
pub fn start_state(variant: &Variant) -> Vec<bool> {
    match variant.family {
        Family::Photon => {
            let sizes = [
                variant.digest_bits / 4,
                variant.block_bits,
                variant.output_bits,
            ];
            let mut state = vec![false; variant.state_bits - 24];
            state.extend(unpack(Order::HighestFirst, &sizes.map(|size| size as u8)));
            state
        }
        Family::Spongent => vec![false; variant.state_bits],
        Family::LesamntaLw => panic!("{NO_SPONGE}"),
    }
}

/// Runs the variant's permutation.
pub fn permute_state(variant: &Variant, state: &mut [bool]) {
    match variant.family {
        Family::Photon => photon::of_size(variant.state_bits).permute(state),
        Family::Spongent => spongent::of_size(variant.state_bits).permute(state),
        Family::LesamntaLw => panic!("{NO_SPONGE}"),
    }
}

/// Runs the inverse of the variant's permutation.
pub fn unpermute_state(variant: &Variant, state: &mut [bool]) {
    match variant.family {
        Family::Photon => photon::of_size(variant.state_bits).unpermute(state),
        Family::Spongent => spongent::of_size(variant.state_bits).unpermute(state),
        Family::LesamntaLw => panic!("{NO_SPONGE}"),
    }
}

/// Adds a block to the state, by exclusive or.
pub fn xor_block(variant: &Variant, state: &mut [bool], block: &[bool]) {
    for (index, &bit) in block.iter().enumerate() {
        state[place(variant.family, index)] ^= bit;
    }
}

/// The first bits of the state, read at the places where a block is added
/// and in a block's order.
pub fn read_block(variant: &Variant, state: &[bool], bits: usize) -> Vec<bool> {
    (0..bits)
        .map(|index| state[place(variant.family, index)])
        .collect()
}

/// One block step: the block is added, then the permutation runs.
pub fn block_step(variant: &Variant, state: &mut [bool], block: &[bool]) {
    xor_block(variant, state, block);
    permute_state(variant, state);
}

/// One block step taken back.
pub fn block_step_back(variant: &Variant, state: &mut [bool], block: &[bool]) {
    unpermute_state(variant, state);
    xor_block(variant, state, block);
}

/// The block that leads from one state to another in one step: what the fronts
/// of the two differ in before the permutation. None if they differ behind it.
pub fn block_between(variant: &Variant, before: &[bool], after: &[bool]) -> Option<Vec<bool>> {
    let mut difference = after.to_vec();
    unpermute_state(variant, &mut difference);
    for (bit, &other) in difference.iter_mut().zip(before) {
        *bit ^= other;
    }
    let block = read_block(variant, &difference, variant.block_bits);
    xor_block(variant, &mut difference, &block);
    (!difference.contains(&true)).then_some(block)
}

/// The digest that follows from the state after the last block. As many
/// output blocks are taken as cover the digest; the permutation runs between
/// them, and what goes past the digest is cut.
pub fn squeeze(variant: &Variant, end_state: &[bool]) -> Vec<bool> {
    let mut state = end_state.to_vec();
    let mut digest = read_block(variant, &state, variant.output_bits);
    while digest.len() < variant.digest_bits {
        permute_state(variant, &mut state);
        digest.extend(read_block(variant, &state, variant.output_bits));
    }
    digest.truncate(variant.digest_bits);
    digest
}

/// Where bit `index` of a block lies in the state. A block holds its bytes
/// from the highest bit; SPONGENT's state counts from the lowest bit of each.
fn place(family: Family, index: usize) -> usize {
    match family {
        Family::Photon => index,
        Family::Spongent => 8 * (index / 8) + 7 - index % 8,
        Family::LesamntaLw => panic!("{NO_SPONGE}"),
    }
}
