//! Lesamnta-LW: its block cipher and the inverse, whose calls are never refused,
//! and what the cipher makes of messages: every short length in bits, long ones,
//! pieces cut anywhere, every number of held bits, and the lost block.

use wickslate_conformance::compare::{
    cipher, finish, hash, hash_bits, read, recover, recover_bits, start, update, update_bits,
};
use wickslate_conformance::make::{bits_of, image, lesamnta_lw, none, places, well_formed};
use wickslate_conformance::random::Random;
use wickslate_conformance::settings::amount;
use wickslate_conformance::wickslate::Hasher;
use wickslate_reference::padding::block_count;
use wickslate_reference::{end_state, end_state_bits};

const NUMBER: u32 = 11;

/// Longer than a result and than a block.
const OUT: [u8; 40] = [0x5e; 40];

/// Lengths in bits beside the ends of blocks.
const EDGES: [usize; 8] = [0, 1, 127, 128, 129, 255, 256, 257];

/// The chaining value before the first block.
fn first_value() -> [u8; 32] {
    let words = [0x0000_0256_u32.to_be_bytes(); 8];
    words.concat().try_into().expect("eight words")
}

fn halves(value: [u8; 32]) -> [[u8; 16]; 2] {
    let (first, second) = value.split_at(16);
    [first, second].map(|half| half.try_into().expect("16 bytes"))
}

fn joined(first: [u8; 16], second: [u8; 16]) -> [u8; 32] {
    [first, second].concat().try_into().expect("32 bytes")
}

#[test]
fn random_keys_and_states_there_and_back() {
    let mut random = Random::of_test("random_keys_and_states");
    for _ in 0..amount(4000, 50) {
        let (key, state) = (random.array(), random.array());
        for back in [false, true] {
            let after = cipher(key, state, back);
            assert_ne!(after, state);
            assert_eq!(cipher(key, after, !back), state);
        }
    }
}

/// Zeros, ones and each single bit, in the key and in the state.
#[test]
fn keys_and_states_of_few_bits() {
    let mut seen = Vec::new();
    let mut expect_new = |key, state| {
        let after = cipher(key, state, false);
        assert!(!seen.contains(&after), "{key:x?} on {state:x?}");
        seen.push(after);
        assert_eq!(cipher(key, after, true), state);
        cipher(key, state, true);
    };
    for byte in [0, 0xff] {
        expect_new([byte; 16], [byte; 32]);
        expect_new([byte; 16], [!byte; 32]);
    }
    for bit in (0..128).step_by(amount(1, 9)) {
        let mut key = [0; 16];
        key[bit / 8] = 0x80 >> (bit % 8);
        expect_new(key, [0; 32]);
    }
    for bit in (0..256).step_by(amount(1, 9)) {
        let mut state = [0; 32];
        state[bit / 8] = 0x80 >> (bit % 8);
        expect_new([0; 16], state);
    }
}

/// Another key does not lead back.
#[test]
fn the_key_counts() {
    let mut random = Random::of_test("the_key_counts");
    for _ in 0..amount(400, 10) {
        let (key, state) = (random.array(), random.array());
        let mut other: [u8; 16] = key;
        other[random.below(16)] ^= 1 << random.below(8);
        assert_ne!(cipher(other, cipher(key, state, false), true), state);
    }
}

/// From one chaining value two blocks never lead to one next value: also for two
/// that differ in a bit.
#[test]
fn blocks_lead_apart() {
    let mut random = Random::of_test("blocks_lead_apart");
    for _ in 0..amount(400, 10) {
        let [key, second, block]: [[u8; 16]; 3] = [(); 3].map(|()| random.array());
        let mut other = block;
        other[random.below(16)] ^= 1 << random.below(8);
        let [one, two] = [block, other].map(|block| cipher(key, joined(block, second), false));
        assert_ne!(one, two);
    }
}

/// "abc" of Annex B.3 by two calls of the cipher: its own block, and the length.
#[test]
fn annex_b_3_by_hand() {
    let mut padded = [0; 32];
    padded[..4].copy_from_slice(b"abc\x80");
    padded[31] = 24;
    let value = halves(padded)
        .into_iter()
        .fold(first_value(), |value, block| {
            let [key, second] = halves(value);
            cipher(key, joined(block, second), false)
        });
    let expected = [
        0xab, 0x32, 0xca, 0x45, 0x17, 0x48, 0x25, 0x5e, 0x3b, 0xf0, 0xe3, 0x4a, 0x5a, 0xd6, 0x00,
        0xf0, 0xce, 0x76, 0x60, 0xec, 0xea, 0x2f, 0xe0, 0x83, 0xba, 0x54, 0x13, 0x9b, 0x77, 0x07,
        0x66, 0xd0,
    ];
    assert_eq!(value, expected);
    for wanted in [0, 1] {
        let given = hash(NUMBER, b"abc", wanted, &[0; 32]);
        assert_eq!(given, (0, expected.into()));
    }
}

/// A message of `bits` random bits: its bytes and, unless there are none, the
/// bit number.
fn message_of(random: &mut Random, bits: usize) -> (Vec<u8>, u32) {
    let message = random.bytes(bits.div_ceil(8));
    let number = (bits as u32).wrapping_sub(1) % 8 + 1;
    (message, number)
}

/// The result of a message in one call, with a bit number if it has a byte.
fn of_bits(message: &[u8], bits: u32, wanted: u32) -> Vec<u8> {
    let (answer, out) = match message.is_empty() {
        true => hash(NUMBER, message, wanted, &OUT),
        false => hash_bits(NUMBER, message, bits, wanted, &OUT),
    };
    assert_eq!((answer, &out[32..]), (0, &OUT[32..]));
    out[..32].to_vec()
}

/// The end state is the digest, in every length.
#[test]
fn every_short_length_in_bits() {
    let mut random = Random::of_test("every_short_length_in_bits");
    let short = (0..=amount(600, 20)).chain(EDGES);
    for bits in short {
        let (message, number) = message_of(&mut random, bits);
        let digest = of_bits(&message, number, 0);
        assert_eq!(digest, of_bits(&message, number, 1), "{bits} bits");
    }
}

#[test]
fn long_messages() {
    let mut random = Random::of_test("long_messages");
    for bits in [8_191, 8_192, 8_193, 65_535, 65_536, 65_537, 400_000] {
        let (message, number) = message_of(&mut random, bits / amount(1, 16));
        of_bits(&message, number, 0);
    }
}

/// Takes a message in pieces, the last with its bit number, and expects what
/// the whole message gives.
fn expect_pieces(pieces: &[&[u8]], bits: u32) {
    let message = pieces.concat();
    let (answer, mut h) = start(none(), NUMBER);
    assert_eq!(answer, 0);
    let (last, before) = pieces.split_last().expect("a piece");
    for piece in before {
        h = taken(update(h, piece));
    }
    h = taken(match last.is_empty() {
        true => update(h, last),
        false => update_bits(h, last, bits),
    });
    let h = taken(finish(h));
    for wanted in [0, 1] {
        let given = read(h, wanted != 0, &[0; 32]);
        assert_eq!(given, (0, of_bits(&message, bits, wanted)));
    }
}

/// The running hash after a call that was done.
fn taken((answer, h): (u32, Hasher)) -> Hasher {
    assert_eq!(answer, 0);
    h
}

#[test]
fn edges_of_blocks_cut_at_every_byte() {
    let mut random = Random::of_test("edges_of_blocks_cut_at_every_byte");
    for bits in EDGES {
        let (message, number) = message_of(&mut random, bits);
        for cut in (0..message.len().max(1)).step_by(amount(1, 5)) {
            let (first, last) = message.split_at(cut);
            expect_pieces(&[first, last], number);
        }
    }
}

#[test]
fn pieces_cut_anywhere() {
    let mut random = Random::of_test("pieces_cut_anywhere");
    for round in 0..amount(120, 4) {
        let bytes = 1 + random.below(300);
        let message = random.bytes(bytes);
        let pieces = random.cut(&message, [2, 17, 40, 200][round % 4]);
        expect_pieces(&pieces, 1 + random.below(8) as u32);
    }
}

/// A running hash that holds any number of bits, whatever they are, goes on and
/// ends: by two blocks, or by one if it holds none, which are put together here.
#[test]
fn every_number_of_held_bits() {
    let mut random = Random::of_test("every_number_of_held_bits");
    for held in (0..128).step_by(amount(1, 7)) {
        for blocks in [0, 1, 1_048_570] {
            let total = 128 * blocks + held as u32;
            let h = well_formed(&mut random, lesamnta_lw(), 0, total);
            let mut value: [u8; 32] = h.state[..32].try_into().expect("32 bytes");
            let mut last = h.held;
            last[held / 8] |= 0x80 >> (held % 8);
            let mut length = [0; 16];
            length[8..].copy_from_slice(&u64::from(total).to_be_bytes());
            let closing = match held {
                0 => {
                    length[0] = 0x80;
                    vec![length]
                }
                _ => vec![last, length],
            };
            for block in closing {
                let [key, second] = halves(value);
                value = cipher(key, joined(block, second), false);
            }
            let ended = taken(finish(h));
            assert_eq!(ended.state[..32], value, "{held} of {total} bits");
            assert_eq!((ended.held, ended.total), ([0; 16], total));
            if held % 8 == 0 {
                let bytes = random.below(40);
                let piece = random.bytes(bytes);
                let next = taken(update(h, &piece));
                assert_eq!(next.total, total + 8 * bytes as u32);
            }
        }
    }
}

/// The block of a padded message at the last place: the length, and the 1 in
/// front of it if the message fills its blocks.
fn last_block(bits: usize) -> Vec<u8> {
    let mut block = (bits as u128).to_be_bytes();
    if bits.is_multiple_of(128) {
        block[0] = 0x80;
    }
    block.into()
}

#[test]
fn the_own_block_is_found_at_the_last_place() {
    let mut random = Random::of_test("the_own_block_is_found");
    for bytes in 0..=amount(70, 20) {
        let message = random.bytes(bytes);
        let end = end_state(NUMBER, &message).expect("a short message");
        let count = block_count(lesamnta_lw(), 8 * bytes);
        assert_eq!(count, bytes.div_ceil(16) + 1);
        for place in 0..count - 1 {
            let given = recover(NUMBER, &message, place, &end, &OUT);
            assert_eq!(given, (17, OUT.to_vec()), "below the last place");
        }
        let given = recover(NUMBER, &message, count - 1, &end, &OUT);
        let expected = [&last_block(8 * bytes)[..], &OUT[16..]].concat();
        assert_eq!(given, (0, expected), "{bytes} bytes");
        for place in [count, count + 1, 1 << 32, usize::MAX] {
            let given = recover(NUMBER, &message, place, &end, &OUT);
            assert_eq!(given, (7, OUT.to_vec()), "past the last place");
        }
    }
}

#[test]
fn the_own_block_is_found_with_a_bit_number() {
    let mut random = Random::of_test("the_own_block_is_found_with_a_bit_number");
    for bytes in (1..=amount(34, 3)).chain([15, 16, 17]) {
        for bits in 1..=8 {
            let message = random.bytes(bytes);
            let all = bits_of(&message, bits);
            let end = end_state_bits(NUMBER, &message, bits).expect("a short message");
            let last = places(lesamnta_lw(), all).start;
            let given = recover_bits(NUMBER, &message, bits, last, &end, &[0; 16]);
            assert_eq!(given, (0, last_block(all)), "{all} bits");
            let given = |place| recover_bits(NUMBER, &message, bits, place, &end, &OUT).0;
            assert_eq!(given(last + 1), 7);
            assert_eq!(given(last - 1), 17);
        }
    }
}

/// Any block at the last place is found from the state that it leads to, which
/// is made here by the cipher; a state with a bit turned over in what stood
/// after the block is led to by none.
#[test]
fn any_block_at_the_last_place() {
    let mut random = Random::of_test("any_block_at_the_last_place");
    for _ in 0..amount(300, 10) {
        let bytes = random.below(50);
        let message = random.bytes(bytes);
        let place = block_count(lesamnta_lw(), 8 * bytes) - 1;
        let [key, second] = halves(value_before_last(&message));
        let block = random.array();
        let end = cipher(key, joined(block, second), false);
        let given = recover(NUMBER, &message, place, &end, &[0; 16]);
        assert_eq!(given, (0, block.into()));

        let mut after = second;
        after[random.below(16)] ^= 1 << random.below(8);
        let end = cipher(key, joined(block, after), false);
        let given = recover(NUMBER, &message, place, &end, &OUT);
        assert_eq!(given, (8, OUT.to_vec()));
    }
}

/// The chaining value before the length is taken in.
fn value_before_last(message: &[u8]) -> [u8; 32] {
    let mut padded = message.to_vec();
    if !padded.len().is_multiple_of(16) {
        padded.push(0x80);
        padded.resize(padded.len().next_multiple_of(16), 0);
    }
    padded.chunks(16).fold(first_value(), |value, block| {
        let [key, second] = halves(value);
        let block = block.try_into().expect("16 bytes");
        cipher(key, joined(block, second), false)
    })
}

/// Almost no state is one block away.
#[test]
fn states_that_no_block_leads_to() {
    let mut random = Random::of_test("states_that_no_block_leads_to");
    for _ in 0..amount(300, 10) {
        let bytes = random.below(50);
        let message = random.bytes(bytes);
        let end = image(&mut random, lesamnta_lw());
        let place = block_count(lesamnta_lw(), 8 * bytes) - 1;
        let given = recover(NUMBER, &message, place, &end, &OUT);
        assert_eq!(given, (8, OUT.to_vec()));
    }
}
