//! Lesamnta-LW's block cipher: against its rounds as clause 6.2.5 has them, that
//! its inverse undoes it, and the block step that is made of it.

mod generator;

use std::collections::HashSet;

use generator::Generator;
use wickslate_reference::bits::{unpack, Order};
use wickslate_reference::lesamnta::{
    block_between, block_step, decrypt, encrypt, g, q, round_constants, start_state, Key, State,
};
use wickslate_reference::sbox;

const SEED: u64 = 0x2919_2005_0602_0011;

/// As many random keys and states.
const TRIALS: usize = 300;

fn array<const N: usize>(generator: &mut Generator) -> [u8; N] {
    generator.bytes(N).try_into().expect("N bytes")
}

fn bits(bytes: &[u8]) -> Vec<bool> {
    unpack(Order::HighestFirst, bytes)
}

/// Twice an element of the field of bytes.
fn doubled(byte: u8) -> u8 {
    let reduced = if byte & 0x80 == 0 { 0 } else { 0x1b };
    byte << 1 ^ reduced
}

/// Q by SubBytes and by the rows of MixColumns, with 03 as 02 and 01.
fn q_by_hand(word: u32) -> u32 {
    let table = sbox::aes();
    let [a, b, c, d] = word.to_be_bytes().map(|byte| table[usize::from(byte)]);
    let row = |a, b, c, d| doubled(a) ^ (doubled(b) ^ b) ^ c ^ d;
    u32::from_be_bytes([
        row(a, b, c, d),
        row(b, c, d, a),
        row(c, d, a, b),
        row(d, a, b, c),
    ])
}

/// The cipher round by round: the mixing function and the key scheduling
/// function, whose words move on by a place each time.
fn encrypt_by_rounds(key: Key, state: State) -> State {
    let word = |k: usize| u64::from_be_bytes(state[8 * k..8 * k + 8].try_into().expect("8 bytes"));
    let part = |k: usize| u32::from_be_bytes(key[4 * k..4 * k + 4].try_into().expect("4 bytes"));
    let mut x = [0, 1, 2, 3].map(word);
    let mut k = [0, 1, 2, 3].map(part);
    for constant in round_constants() {
        x = [x[3] ^ g(x[2], k[0]), x[0], x[1], x[2]];
        k = [k[3] ^ q_by_hand(constant ^ k[2]), k[0], k[1], k[2]];
    }
    let bytes = x.map(u64::to_be_bytes).concat();
    bytes.try_into().expect("32 bytes")
}

#[test]
fn q_is_the_substitution_and_the_matrix() {
    let mut generator = Generator::new(SEED);
    let every_byte = (0..=255).flat_map(|byte| (0..4).map(move |place| byte << (8 * place)));
    for word in every_byte {
        assert_eq!(q(word), q_by_hand(word), "{word:08x}");
    }
    for _ in 0..TRIALS {
        let word = u32::from_be_bytes(array(&mut generator));
        assert_eq!(q(word), q_by_hand(word), "{word:08x}");
    }
}

/// R sends byte 0 to place 4, 1 to 5, 4 to 0 and 5 to 1, and leaves the others.
#[test]
fn g_is_q_on_both_words_with_four_bytes_exchanged() {
    let mut generator = Generator::new(SEED);
    for _ in 0..TRIALS {
        let [first, second, key]: [u32; 3] =
            [(); 3].map(|()| u32::from_be_bytes(array(&mut generator)));
        let s = [q(first ^ key), q(second)].map(u32::to_be_bytes).concat();
        let exchanged = [s[4], s[5], s[2], s[3], s[0], s[1], s[6], s[7]];
        let y = u64::from(first) << 32 | u64::from(second);
        assert_eq!(g(y, key), u64::from_be_bytes(exchanged));
    }
}

#[test]
fn the_cipher_is_its_rounds() {
    let mut generator = Generator::new(SEED);
    for _ in 0..TRIALS {
        let (key, state) = (array(&mut generator), array(&mut generator));
        assert_eq!(encrypt(key, state), encrypt_by_rounds(key, state));
    }
    for (key, state) in [([0; 16], [0; 32]), ([0xff; 16], [0xff; 32])] {
        assert_eq!(encrypt(key, state), encrypt_by_rounds(key, state));
    }
}

/// Makes one call and then the other with the same key, and expects the first to
/// move the state and the second to bring it back.
fn expect_undone(calls: [fn(Key, State) -> State; 2]) {
    let mut generator = Generator::new(SEED);
    for _ in 0..TRIALS {
        let (key, before) = (array(&mut generator), array(&mut generator));
        let after = calls[0](key, before);
        assert_ne!(after, before);
        assert_eq!(calls[1](key, after), before);
    }
}

#[test]
fn decrypt_undoes_encrypt() {
    expect_undone([encrypt, decrypt]);
}

#[test]
fn encrypt_undoes_decrypt() {
    expect_undone([decrypt, encrypt]);
}

/// Each bit of the key and of the state makes another result, both ways.
#[test]
fn every_bit_of_key_and_state_counts() {
    let mut generator = Generator::new(SEED);
    let (key, state): (Key, State) = (array(&mut generator), array(&mut generator));
    for call in [encrypt, decrypt] {
        let mut seen = HashSet::from([call(key, state)]);
        for bit in 0..128 {
            let mut other = key;
            other[bit / 8] ^= 0x80 >> (bit % 8);
            assert!(seen.insert(call(other, state)), "bit {bit} of the key");
        }
        for bit in 0..256 {
            let mut other = state;
            other[bit / 8] ^= 0x80 >> (bit % 8);
            assert!(seen.insert(call(key, other)), "bit {bit} of the state");
        }
    }
}

/// The first half of a chaining value is the key, and the second half goes in
/// behind the block.
#[test]
fn a_block_step_enciphers_the_block_and_the_second_half() {
    let mut generator = Generator::new(SEED);
    for _ in 0..TRIALS {
        let [first, second, block]: [Key; 3] = [(); 3].map(|()| array(&mut generator));
        let mut state = bits(&[first, second].concat());
        block_step(&mut state, &bits(&block));
        let enciphered = [block, second].concat().try_into().expect("32 bytes");
        assert_eq!(state, bits(&encrypt(first, enciphered)));
    }
}

/// The block is found between the values before and behind it, and none is
/// found where the second half has a bit that the value before has not.
#[test]
fn a_block_between_two_values() {
    let mut generator = Generator::new(SEED);
    for _ in 0..TRIALS {
        let before = bits(&array::<32>(&mut generator));
        let block = bits(&array::<16>(&mut generator));
        let mut after = before.clone();
        block_step(&mut after, &block);
        assert_eq!(block_between(&before, &after), Some(block.clone()));
        let bit = 128 + usize::from(array::<1>(&mut generator)[0]) / 2;
        let mut elsewhere = before.clone();
        elsewhere[bit] ^= true;
        assert_eq!(block_between(&elsewhere, &after), None, "bit {bit}");
        block_step(&mut elsewhere, &block);
        assert_eq!(block_between(&before, &elsewhere), None, "bit {bit}");
    }
}

/// From one chaining value no two blocks lead to the same next value.
#[test]
fn blocks_lead_apart() {
    let mut generator = Generator::new(SEED);
    let mut seen = HashSet::new();
    let single = (0..128).map(|bit| (0..128).map(|place| place == bit).collect());
    let random = (0..TRIALS).map(|_| bits(&array::<16>(&mut generator)));
    let blocks: HashSet<Vec<bool>> = single.chain(random).collect();
    for block in &blocks {
        let mut state = start_state();
        block_step(&mut state, block);
        assert!(seen.insert(state));
    }
    assert_eq!(seen.len(), 128 + TRIALS);
}
