//! From a message's bits to blocks (clauses 5.2.3, 5.3.3 and 6.2.2).

use crate::bits::{unpack, Order};
use crate::variants::{Family, Variant};

/// Two readings of where the added 1 goes after a message of whole bytes.
#[derive(Clone, Copy, Debug, PartialEq, Eq)]
pub enum Padding {
    /// It is the next bit of the bit string: the byte 80. The functions use
    /// this one, since Annex B's digests need it, and for messages that end
    /// inside a byte too.
    NextBit,
    /// In SPONGENT it is the lowest bit not yet taken, counted as the state
    /// counts bits: the byte 01. Kept for the comparison with Annex B alone;
    /// the other families count from the highest bit, so nothing changes there.
    LowestFreeBit,
}

/// The number of blocks of a padded message of so many bits. That of
/// Lesamnta-LW ends in a block of its own for the length.
pub fn block_count(variant: &Variant, bits: usize) -> usize {
    match variant.is_sponge() {
        true => bits / variant.block_bits + 1,
        false => bits.div_ceil(variant.block_bits) + 1,
    }
}

/// What the padding adds behind a message of so many bits, up to the end of the
/// last block: a 1 among zeros and, for Lesamnta-LW, the length in 64 bits.
pub fn added(variant: &Variant, padding: Padding, bits: usize) -> Vec<bool> {
    let all = block_count(variant, bits) * variant.block_bits;
    let mut added = vec![false; all - bits];
    added[bits_before_one(variant.family, padding)] = true;
    if variant.family == Family::LesamntaLw {
        let length = unpack(Order::HighestFirst, &(bits as u64).to_be_bytes());
        added.truncate(added.len() - length.len());
        added.extend(length);
    }
    added
}

/// Block `index` of the padded message, from 0.
pub fn block(variant: &Variant, padding: Padding, message: &[bool], index: usize) -> Vec<bool> {
    let first = index * variant.block_bits;
    let end = first + variant.block_bits;
    if let Some(whole) = message.get(first..end) {
        return whole.to_vec();
    }
    let added = added(variant, padding, message.len());
    let bit = |place: usize| match message.get(place) {
        Some(&bit) => bit,
        None => added[place - message.len()],
    };
    (first..end).map(bit).collect()
}

/// How many zeros the padding puts before its 1.
fn bits_before_one(family: Family, padding: Padding) -> usize {
    match (family, padding) {
        (Family::Spongent, Padding::LowestFreeBit) => 7,
        _ => 0,
    }
}
