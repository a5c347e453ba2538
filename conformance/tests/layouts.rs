//! The look-ups against the plain steps. The archive has each permutation
//! twice: the calls that hash run it by look-ups in combined tables on words
//! that stay in place from block to block, and `wickslate_permute` step by step
//! on an image. A state that the first takes over some blocks must be the one
//! that the second takes over the same blocks, cut and added here by hand. A
//! state of Lesamnta-LW must be the one that `wickslate_lesamnta_encrypt` makes.
//! The Rust version makes every call as well.

use wickslate_conformance::compare::{cipher, finish, permute, read, update};
use wickslate_conformance::make::{bits_from, spare_state, well_formed};
use wickslate_conformance::random::Random;
use wickslate_conformance::settings::amount;
use wickslate_conformance::wickslate::Hasher;
use wickslate_reference::running::HELD_BYTES;
use wickslate_reference::{Family, Variant, VARIANTS};

/// A bit of some bytes: the byte, and the bit's value in it.
type Bit = (usize, u8);

/// The bits of this number of bytes. Blocks and held bits are read from the high bit
/// of each byte in every family, and a block's bit goes to the same bit of an
/// image, which for SPONGENT makes it bytes added to bytes.
fn bits(bytes: usize) -> Vec<Bit> {
    bits_from(Family::Photon, 0, bytes)
}

/// Adds the set ones of these bits to the front of the image, and runs the
/// permutation by plain steps. For Lesamnta-LW they replace the front, which is
/// the key.
fn step(variant: &Variant, image: &mut Vec<u8>, bytes: &[u8], block: &[Bit]) {
    assert_eq!(block.len(), variant.block_bits, "a whole block");
    let key = image.clone();
    if !variant.is_sponge() {
        image[..16].fill(0);
    }
    for (&(byte, bit), (at, value)) in block.iter().zip(bits(image.len())) {
        if bytes[byte] & bit != 0 {
            image[at] ^= value;
        }
    }
    match variant.is_sponge() {
        true => permuted(variant, image),
        false => *image = enciphered(&key[..16], image),
    }
}

/// Runs Lesamnta-LW's cipher.
fn enciphered(key: &[u8], image: &[u8]) -> Vec<u8> {
    let key = key.try_into().expect("half an image");
    let image = image.try_into().expect("an image");
    cipher(key, image, false).into()
}

/// Runs the permutation by plain steps.
fn permuted(variant: &Variant, image: &mut Vec<u8>) {
    let (answer, after) = permute(variant.number, image, false);
    assert_eq!(answer, 0);
    *image = after;
}

/// The state of a running hash as an image.
fn image_of(variant: &Variant, h: &Hasher) -> Vec<u8> {
    h.state[..variant.image_bytes()].to_vec()
}

/// The least number of bytes that are whole blocks: that of two blocks if one
/// ends within a byte.
fn whole_bytes(variant: &Variant) -> usize {
    match variant.block_bits % 8 {
        0 => variant.block_bits / 8,
        _ => variant.block_bits / 4,
    }
}

/// An open running hash that holds any state and no bits.
fn open(random: &mut Random, variant: &Variant) -> Hasher {
    well_formed(random, variant, 0, 0)
}

/// The same with every state bit as in this byte.
fn filled(random: &mut Random, variant: &Variant, byte: u8) -> Hasher {
    let mut h = open(random, variant);
    h.state = [byte; 36];
    for (at, bit) in spare_state(variant) {
        h.state[at] &= !bit;
    }
    h
}

/// Takes whole blocks in one piece, and by plain steps.
fn expect_same(variant: &Variant, before: Hasher, bytes: &[u8]) {
    let (answer, after) = update(before, bytes);
    assert_eq!((answer, after.held), (0, [0; HELD_BYTES]));
    let mut image = image_of(variant, &before);
    for block in bits(bytes.len()).chunks(variant.block_bits) {
        step(variant, &mut image, bytes, block);
    }
    let name = variant.name;
    assert_eq!(
        image_of(variant, &after),
        image,
        "{name}: {bytes:x?} from {before:x?}"
    );
}

#[test]
fn any_state_and_block() {
    let mut random = Random::of_test("any_state_and_block");
    for variant in &VARIANTS {
        for _ in 0..amount(400, 10) {
            let h = open(&mut random, variant);
            expect_same(variant, h, &random.bytes(whole_bytes(variant)));
        }
    }
}

/// Zeros, ones and anything, as state and as block.
#[test]
fn states_and_blocks_of_equal_bits() {
    let mut random = Random::of_test("states_and_blocks_of_equal_bits");
    for variant in &VARIANTS {
        for count in 1..=amount(5, 2) {
            let bytes = count * whole_bytes(variant);
            for h in [
                filled(&mut random, variant, 0),
                filled(&mut random, variant, 0xff),
                open(&mut random, variant),
            ] {
                for blocks in [vec![0; bytes], vec![0xff; bytes], random.bytes(bytes)] {
                    expect_same(variant, h, &blocks);
                }
            }
        }
    }
}

#[test]
fn states_of_one_bit() {
    let mut random = Random::of_test("states_of_one_bit");
    for variant in &VARIANTS {
        let zero = filled(&mut random, variant, 0);
        for (byte, bit) in bits_from(variant.family, 0, 36)
            .into_iter()
            .take(variant.state_bits)
            .step_by(amount(1, 8))
        {
            let mut h = zero;
            h.state[byte] = bit;
            expect_same(variant, h, &vec![0; whole_bytes(variant)]);
        }
    }
}

/// Words that stay from block to block, against an image made anew for each.
#[test]
fn many_blocks_in_one_piece() {
    let mut random = Random::of_test("many_blocks_in_one_piece");
    for variant in &VARIANTS {
        for _ in 0..amount(4, 1) {
            for count in (1..=40).step_by(amount(1, 13)) {
                let h = open(&mut random, variant);
                expect_same(variant, h, &random.bytes(count * whole_bytes(variant)));
            }
        }
    }
}

/// The bytes of the last block: the held bits, a one and zeros. Lesamnta-LW has
/// the length after them, in a block in which nothing is held.
fn last_blocks(variant: &Variant, h: &Hasher) -> Vec<u8> {
    let held = h.total as usize % variant.block_bits;
    let count = match variant.is_sponge() || held == 0 {
        true => 1,
        false => 2,
    };
    let mut last = h.held.to_vec();
    last.resize((count * variant.block_bits).div_ceil(8), 0);
    let (byte, bit) = bits(last.len())[held];
    last[byte] |= bit;
    if !variant.is_sponge() {
        let half = last.len() - 8;
        last[half..].copy_from_slice(&u64::from(h.total).to_be_bytes());
    }
    last
}

/// The last blocks, and the permutations between the blocks of a digest.
#[test]
fn ends_and_digests() {
    let mut random = Random::of_test("ends_and_digests");
    for variant in &VARIANTS {
        // These totals give every number of held bits.
        for total in (0..variant.block_bits).cycle().take(amount(180, 36)) {
            let before = well_formed(&mut random, variant, 0, total as u32);
            let (answer, after) = finish(before);
            assert_eq!(answer, 0);
            let last = last_blocks(variant, &before);
            let mut image = image_of(variant, &before);
            for block in bits(last.len()).chunks_exact(variant.block_bits) {
                step(variant, &mut image, &last, block);
            }
            assert_eq!(image_of(variant, &after), image, "{} ends", variant.name);

            let digest = squeezed(variant, image);
            let given = read(after, false, &vec![0; digest.len()]);
            assert_eq!(given, (0, digest), "{}'s digest", variant.name);
        }
    }
}

/// The digest of an end state, by plain steps. Lesamnta-LW's is that state, and
/// takes none.
fn squeezed(variant: &Variant, mut image: Vec<u8>) -> Vec<u8> {
    let mut digest = vec![0; variant.digest_bytes()];
    let front = bits(variant.output_bits.div_ceil(8));
    for (k, (byte, bit)) in bits(digest.len()).into_iter().enumerate() {
        let from = k % variant.output_bits;
        if k > 0 && from == 0 {
            permuted(variant, &mut image);
        }
        let (at, value) = front[from];
        if image[at] & value != 0 {
            digest[byte] |= bit;
        }
    }
    digest
}
