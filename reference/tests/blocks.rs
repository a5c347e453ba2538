//! The hash functions block by block: what their parts give must be what the
//! whole message gives.

mod generator;

use generator::Generator;
use wickslate_reference::bits::{pack, unpack, Order};
use wickslate_reference::chain::{self, block_step, start_state};
use wickslate_reference::padding::{block, block_count};
use wickslate_reference::sponge::{permute_state, read_block, squeeze, unpermute_state, xor_block};
use wickslate_reference::{
    digest, end_state, image, sponges, unpermute, variant, Message, Padding, Variant, VARIANTS,
};

const SEED: u64 = 0x0005_2919_2abc_def1;

/// A random number below a bound of at most 256.
fn below(generator: &mut Generator, bound: usize) -> usize {
    usize::from(generator.bytes(1)[0]) % bound
}

/// Block `index` of a message of whole bytes.
fn block_at(variant: &Variant, message: &[u8], index: usize) -> Vec<bool> {
    let bits = Message::whole(message).bits(variant.family);
    block(variant, Padding::NextBit, &bits, index)
}

/// The state after the first `count` blocks of a message.
fn after_blocks(variant: &Variant, message: &[u8], count: usize) -> Vec<bool> {
    let mut state = start_state(variant);
    for index in 0..count {
        block_step(variant, &mut state, &block_at(variant, message, index));
    }
    state
}

/// Feeds a message in pieces, as a caller would who holds the bits that do
/// not yet fill a block, and gives the end state.
fn in_pieces(variant: &Variant, pieces: &[&[u8]]) -> Vec<bool> {
    let mut state = start_state(variant);
    let mut held: Vec<bool> = Vec::new();
    for piece in pieces {
        held.extend(unpack(Order::HighestFirst, piece));
        while held.len() >= variant.block_bits {
            let rest = held.split_off(variant.block_bits);
            block_step(variant, &mut state, &held);
            held = rest;
        }
    }
    held.extend(closing(variant, 8 * pieces.concat().len()));
    for block in held.chunks(variant.block_bits) {
        block_step(variant, &mut state, block);
    }
    state
}

/// What is put behind a message of so many bits: a 1 and zeros up to the end of
/// a block. In Lesamnta-LW they end 64 bits behind the end of one, and the
/// length follows.
fn closing(variant: &Variant, bits: usize) -> Vec<bool> {
    let mut closing = vec![true];
    if variant.is_sponge() {
        let end = (bits + 1).next_multiple_of(variant.block_bits);
        closing.resize(end - bits, false);
    } else {
        let end = bits.next_multiple_of(variant.block_bits) + 64;
        closing.resize(end - bits, false);
        closing.extend(unpack(Order::HighestFirst, &(bits as u64).to_be_bytes()));
    }
    closing
}

#[test]
fn pieces_lead_to_the_end_state_and_digest_of_the_whole() {
    let mut generator = Generator::new(SEED);
    for variant in &VARIANTS {
        for length in 0..40 {
            let message = generator.bytes(length);
            let first = below(&mut generator, length + 1);
            let second = first + below(&mut generator, length - first + 1);
            let pieces = [
                &message[..first],
                &message[first..second],
                &message[second..],
            ];
            let state = in_pieces(variant, &pieces);
            let name = variant.name;
            assert_eq!(
                end_state(variant.number, &message),
                Ok(image::of_state(variant, &state)),
                "{name}, {length} bytes cut at {first} and {second}"
            );
            assert_eq!(
                digest(variant.number, &message),
                Ok(pack(Order::HighestFirst, &chain::digest(variant, &state))),
                "{name}, {length} bytes cut at {first} and {second}"
            );
        }
    }
}

/// Runs an end state back to the moment after the block at `place` was
/// added, and takes the state before that block out of it.
fn difference_at(variant: &Variant, message: &[u8], place: usize, end: &[bool]) -> Vec<bool> {
    let mut state = end.to_vec();
    for index in (place + 1..block_count(variant, 8 * message.len())).rev() {
        unpermute_state(variant, &mut state);
        xor_block(variant, &mut state, &block_at(variant, message, index));
    }
    unpermute_state(variant, &mut state);
    let before = after_blocks(variant, message, place);
    state.iter().zip(before).map(|(&a, b)| a ^ b).collect()
}

#[test]
fn every_block_comes_back_from_the_end_state() {
    let mut generator = Generator::new(SEED);
    for variant in sponges() {
        let message = generator.bytes(11);
        let count = block_count(variant, 8 * message.len());
        let end = after_blocks(variant, &message, count);
        for place in 0..count {
            let mut difference = difference_at(variant, &message, place, &end);
            let expected = block_at(variant, &message, place);
            let found = read_block(variant, &difference, variant.block_bits);
            assert_eq!(found, expected, "{}, place {place}", variant.name);
            xor_block(variant, &mut difference, &expected);
            assert!(!difference.contains(&true), "bits outside the block agree");
        }
    }
}

/// A state that differs outside a block's bits is no block away from the
/// start.
#[test]
fn a_state_that_no_block_leads_to() {
    let spongent_88 = variant(6).expect("a number from 1 to 11");
    let mut state = vec![0; 11];
    state[1] = 0x01;
    let mut state = image::to_state(spongent_88, &state).expect("eleven bytes");
    permute_state(spongent_88, &mut state);
    let difference = difference_at(spongent_88, &[], 0, &state);
    let set: Vec<usize> = (0..88).filter(|&place| difference[place]).collect();
    assert_eq!(set, [8], "bit 8 is past the block's bits 0 to 7");
}

#[test]
fn spongent_adds_message_bytes_to_state_bytes_in_order() {
    for number in [8, 9, 10] {
        let variant = variant(number).expect("a number from 1 to 11");
        let mut after = end_state(number, &[0xab]).expect("not refused");
        assert_eq!(unpermute(number, &mut after), 0);
        let mut expected = vec![0; variant.image_bytes()];
        expected[..2].copy_from_slice(&[0xab, 0x80]);
        assert_eq!(after, expected, "{}", variant.name);
    }
}

#[test]
fn photon_adds_blocks_to_the_leftmost_bits() {
    let mut after = end_state(1, &[0xab, 0xcd]).expect("not refused");
    assert_eq!(unpermute(1, &mut after), 0);
    let expected = [0xab, 0xcd, 0x80, 0, 0, 0, 0, 0, 0, 0x01, 0x41, 0x41, 0x00];
    assert_eq!(after, expected);
}

#[test]
fn start_states_end_in_the_sizes() {
    for (number, sizes) in [(1, [0x14, 0x14, 0x10]), (4, [0x38, 0x20, 0x20])] {
        let variant = variant(number).expect("a number from 1 to 11");
        let start = start_state(variant);
        let (zeros, last) = start.split_at(variant.state_bits - 24);
        assert!(!zeros.contains(&true));
        assert_eq!(pack(Order::HighestFirst, last), sizes);
    }
}

/// PHOTON-196 gives out 36 bits at a time and needs 160: four whole blocks
/// and 16 bits of a fifth.
#[test]
fn the_last_output_block_is_cut() {
    let photon_196 = variant(3).expect("a number from 1 to 11");
    let mut state = after_blocks(photon_196, b"abc", 1);
    let digest = squeeze(photon_196, &state);
    assert_eq!(digest.len(), 160);
    for first in [0, 36, 72, 108] {
        assert_eq!(digest[first..first + 36], state[..36], "from bit {first}");
        permute_state(photon_196, &mut state);
    }
    assert_eq!(digest[144..], state[..16]);
}

/// PHOTON-100 takes in 20 bits at a time but gives out 16.
#[test]
fn photon_100_gives_out_sixteen_bits_at_a_time() {
    let photon_100 = variant(1).expect("a number from 1 to 11");
    let mut state = after_blocks(photon_100, b"abc", 2);
    let digest = squeeze(photon_100, &state);
    assert_eq!(digest.len(), 80);
    for first in [0, 16, 32, 48, 64] {
        assert_eq!(digest[first..first + 16], state[..16], "from bit {first}");
        permute_state(photon_100, &mut state);
    }
}
