//! Lesamnta-LW's block cipher and its inverse (clause 6.2.5), and the block
//! step that is made of the cipher (clause 6.2.4).
//!
//! In a round four words move on by a place, and only one of them becomes
//! another. So the words of all rounds are one row here, in which a round puts
//! a word behind the last and the inverse of a round one before the first. The
//! round keys are such a row too.

use std::iter::successors;
use std::sync::OnceLock;

use crate::bits::{pack, unpack, Order};
use crate::field::Field;
use crate::matrix::{ColumnSums, Matrix};
use crate::sbox;

/// The bytes of a key and of a block.
pub const KEY_BYTES: usize = 16;

/// The bytes of what the cipher takes and gives, and of a chaining value.
pub const STATE_BYTES: usize = 32;

/// The rounds of the cipher.
const ROUNDS: usize = 64;

/// As many words as a round looks at.
const WORDS: usize = 4;

/// The exponents of g(x), whose register generates the round constants.
const POLYNOMIAL: [u32; 17] = [
    32, 31, 29, 28, 26, 25, 24, 23, 20, 19, 17, 16, 15, 12, 11, 8, 0,
];

/// The word of which the first chaining value is made.
const START_WORD: u32 = 0x0000_0256;

/// A key, or half a chaining value.
pub type Key = [u8; KEY_BYTES];

/// What the cipher takes and gives.
pub type State = [u8; STATE_BYTES];

/// The cipher with a key.
pub fn encrypt(key: Key, state: State) -> State {
    cipher().encrypt(key, state)
}

/// The inverse of the cipher with a key.
pub fn decrypt(key: Key, state: State) -> State {
    cipher().decrypt(key, state)
}

/// The chaining value before the first block.
pub fn start_state() -> Vec<bool> {
    let word = unpack(Order::HighestFirst, &START_WORD.to_be_bytes());
    word.repeat(STATE_BYTES / 4)
}

/// One block step: the first half of the chaining value is the key with which
/// the block and the second half are enciphered.
pub fn block_step(state: &mut [bool], block: &[bool]) {
    let [first, second] = halves(state);
    let after = encrypt(first, joined(bytes_of(block), second));
    state.copy_from_slice(&unpack(Order::HighestFirst, &after));
}

/// The block that leads from one chaining value to another in one step; none
/// if the deciphered one does not end in the second half of the one before.
pub fn block_between(before: &[bool], after: &[bool]) -> Option<Vec<bool>> {
    let [first, second] = halves(before);
    let [block, behind] = halves_of(decrypt(first, bytes_of(after)));
    (behind == second).then(|| unpack(Order::HighestFirst, &block))
}

/// Q, on four bytes.
pub fn q(word: u32) -> u32 {
    cipher().q(word)
}

/// G, on y and a round key.
pub fn g(y: u64, key: u32) -> u64 {
    cipher().g(y, key)
}

/// C(0) to C(63), as the constant generator makes them (clause 6.2.5.3.2):
/// every third value of the register, from the first after its start.
pub fn round_constants() -> Vec<u32> {
    register().skip(1).step_by(3).take(ROUNDS).collect()
}

/// The values of the register from its start. A value is a polynomial, and is
/// divided by x: where it has a coefficient for 1, g(x) is added first.
fn register() -> impl Iterator<Item = u32> {
    let polynomial: u64 = POLYNOMIAL.iter().map(|exponent| 1 << exponent).sum();
    successors(Some(u32::MAX), move |&value| {
        let value = u64::from(value);
        let multiple = if value & 1 == 1 { polynomial } else { 0 };
        Some(((value ^ multiple) >> 1) as u32)
    })
}

/// The cipher, with what its rounds look up.
struct Cipher {
    constants: Vec<u32>,
    /// The S-box of SubBytes.
    substituted: Vec<u8>,
    /// MixColumns.
    mixed: ColumnSums,
}

fn cipher() -> &'static Cipher {
    static CIPHER: OnceLock<Cipher> = OnceLock::new();
    CIPHER.get_or_init(|| {
        let rows = [[2, 3, 1, 1], [1, 2, 3, 1], [1, 1, 2, 3], [3, 1, 1, 2]];
        let matrix = Matrix {
            rows: rows.map(Vec::from).into(),
        };
        Cipher {
            constants: round_constants(),
            substituted: sbox::aes(),
            mixed: ColumnSums::new(&Field::of_bytes(), &matrix),
        }
    })
}

impl Cipher {
    /// SubBytes, then MixColumns.
    fn q(&self, word: u32) -> u32 {
        let bytes = word.to_be_bytes();
        let replaced = bytes.map(|byte| self.substituted[usize::from(byte)]);
        let [a, b, c, d, ..] = self.mixed.product(replaced.into_iter());
        u32::from_be_bytes([a, b, c, d])
    }

    /// Q on either half of y, the round key added to the first, and then R,
    /// which exchanges bytes of the halves.
    fn g(&self, y: u64, key: u32) -> u64 {
        let first = self.q((y >> 32) as u32 ^ key);
        let second = self.q(y as u32);
        let [s0, s1, s2, s3] = first.to_be_bytes();
        let [s4, s5, s6, s7] = second.to_be_bytes();
        u64::from_be_bytes([s4, s5, s2, s3, s0, s1, s6, s7])
    }

    /// The round keys K(0) to K(63).
    fn round_keys(&self, key: Key) -> Vec<u32> {
        let words = key
            .as_chunks()
            .0
            .iter()
            .map(|&word| u32::from_be_bytes(word));
        let mut row: Vec<u32> = words.rev().collect();
        for r in 0..ROUNDS - 1 {
            row.push(row[r] ^ self.q(self.constants[r] ^ row[r + 1]));
        }
        row.split_off(WORDS - 1)
    }

    /// From the first words of the row to its last.
    fn encrypt(&self, key: Key, state: State) -> State {
        let mut row = [0; ROUNDS + WORDS];
        row[..WORDS].copy_from_slice(&words_of(state));
        for (r, round_key) in self.round_keys(key).into_iter().enumerate() {
            row[r + WORDS] = row[r] ^ self.g(row[r + 1], round_key);
        }
        state_of(&row[ROUNDS..])
    }

    /// From the last words of the row to its first.
    fn decrypt(&self, key: Key, state: State) -> State {
        let mut row = [0; ROUNDS + WORDS];
        row[ROUNDS..].copy_from_slice(&words_of(state));
        for (r, round_key) in self.round_keys(key).into_iter().enumerate().rev() {
            row[r] = row[r + WORDS] ^ self.g(row[r + 1], round_key);
        }
        state_of(&row[..WORDS])
    }
}

/// The words of a state as they stand in the row: x_0 is the last of them.
fn words_of(state: State) -> [u64; WORDS] {
    let [x0, x1, x2, x3] = std::array::from_fn(|k| {
        let word: [u8; 8] = std::array::from_fn(|byte| state[8 * k + byte]);
        u64::from_be_bytes(word)
    });
    [x3, x2, x1, x0]
}

/// The state whose words stand in the row like this.
fn state_of(row: &[u64]) -> State {
    let bytes: Vec<u8> = row
        .iter()
        .rev()
        .flat_map(|word| word.to_be_bytes())
        .collect();
    bytes.try_into().expect("four words")
}

/// The bytes of a bit string.
fn bytes_of<const N: usize>(bits: &[bool]) -> [u8; N] {
    let bytes = pack(Order::HighestFirst, bits);
    bytes
        .try_into()
        .expect("as many bits as a block or a state has")
}

/// The halves of a chaining value.
fn halves(state: &[bool]) -> [Key; 2] {
    halves_of(bytes_of(state))
}

fn halves_of(state: State) -> [Key; 2] {
    [0, KEY_BYTES].map(|from| std::array::from_fn(|byte| state[from + byte]))
}

fn joined(first: Key, second: Key) -> State {
    let bytes = [first, second].concat();
    bytes.try_into().expect("two halves")
}
