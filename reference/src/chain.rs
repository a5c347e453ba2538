//! From the blocks of a message to its end state and digest, in every family:
//! sponges take a block in by their permutation, Lesamnta-LW by its cipher.

use crate::padding::{block, block_count, Padding};
use crate::variants::Variant;
use crate::{lesamnta, sponge};

/// The state before the first block.
pub fn start_state(variant: &Variant) -> Vec<bool> {
    match variant.is_sponge() {
        true => sponge::start_state(variant),
        false => lesamnta::start_state(),
    }
}

/// One block step.
pub fn block_step(variant: &Variant, state: &mut [bool], block: &[bool]) {
    match variant.is_sponge() {
        true => sponge::block_step(variant, state, block),
        false => lesamnta::block_step(state, block),
    }
}

/// The state after all blocks of the padded message, which is given in bits.
pub fn end_state(variant: &Variant, padding: Padding, message: &[bool]) -> Vec<bool> {
    let mut state = start_state(variant);
    for index in 0..block_count(variant, message.len()) {
        let block = block(variant, padding, message, index);
        block_step(variant, &mut state, &block);
    }
    state
}

/// The digest that follows from the end state. For Lesamnta-LW it is that
/// state.
pub fn digest(variant: &Variant, end_state: &[bool]) -> Vec<bool> {
    match variant.is_sponge() {
        true => sponge::squeeze(variant, end_state),
        false => end_state.to_vec(),
    }
}

/// The block that leads from one state to another in one step; none if no
/// block does.
pub fn block_between(variant: &Variant, before: &[bool], after: &[bool]) -> Option<Vec<bool>> {
    match variant.is_sponge() {
        true => sponge::block_between(variant, before, after),
        false => lesamnta::block_between(before, after),
    }
}
