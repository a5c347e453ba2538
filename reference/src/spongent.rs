//! The SPONGENT permutations (clause 5.3.4) on states kept as one wide
//! number.

use std::iter::successors;
use std::sync::OnceLock;

use crate::bits::{unpack, Order};
use crate::lookup;
use crate::sbox;

/// A state: its bit k is bit k % 64 of word k / 64. Bits past t mean nothing
/// and are left out when bits move or are written back.
type Wide = [u64; 5];

/// The parameters of one permutation (Table 9).
struct Parameters {
    state_bits: usize,
    rounds: usize,
    /// The first value of the round counter.
    first: u8,
    /// The exponents of the counter's polynomial, the highest first.
    polynomial: &'static [u32],
}

const TABLE_9: [Parameters; 5] = [
    parameters(88, 45, 0x05, &[6, 5, 0]),
    parameters(136, 70, 0x7a, &[7, 6, 0]),
    parameters(176, 90, 0x45, &[7, 6, 0]),
    parameters(240, 120, 0x01, &[7, 6, 0]),
    parameters(272, 140, 0x9e, &[8, 4, 3, 2, 0]),
];

/// A row of Table 9.
const fn parameters(
    state_bits: usize,
    rounds: usize,
    first: u8,
    polynomial: &'static [u32],
) -> Parameters {
    Parameters {
        state_bits,
        rounds,
        first,
        polynomial,
    }
}

/// One SPONGENT permutation, with the tables that its rounds look up.
pub struct Spongent {
    state_bits: usize,
    /// What cAddition adds in each round.
    constants: Vec<Wide>,
    /// The S-box on both nibbles of a byte, and its inverse.
    substituted: Vec<u8>,
    restored: Vec<u8>,
    /// pLayer and its inverse.
    moved: BitMoves,
    returned: BitMoves,
}

/// Which way the rounds run.
#[derive(Clone, Copy, Debug, PartialEq, Eq)]
pub enum Direction {
    /// The permutation.
    Forward,
    /// Its inverse.
    Back,
}

/// One round, or its inverse, as it is met in a debugger. States are images:
/// bit 0 of the state is the lowest bit of the first byte.
#[derive(Clone, Debug, PartialEq, Eq)]
pub struct Round {
    /// Which round of the permutation it is, or takes back, from 1.
    pub number: usize,
    /// What cAddition adds to the first byte: lCounter.
    pub counter: u8,
    /// What cAddition adds to the last byte: the 8 top bits of retnuoCl.
    pub reversed: u8,
    /// The state before the round.
    pub before: Vec<u8>,
    /// The states after the three layers, in the order in which they are
    /// applied: cAddition, sBoxLayer and pLayer, or from pLayer back.
    pub layers: [Vec<u8>; 3],
}

/// The permutation of states with this many bits. Panics if there is none.
pub fn of_size(state_bits: usize) -> &'static Spongent {
    static ALL: OnceLock<Vec<Spongent>> = OnceLock::new();
    ALL.get_or_init(|| TABLE_9.iter().map(Spongent::new).collect())
        .iter()
        .find(|spongent| spongent.state_bits == state_bits)
        .expect("SPONGENT has states of 88, 136, 176, 240 and 272 bits")
}

impl Spongent {
    fn new(parameters: &Parameters) -> Spongent {
        let state_bits = parameters.state_bits;
        let destinations = destinations(state_bits);
        let substituted = on_both_nibbles(&sbox::SPONGENT);
        Spongent {
            state_bits,
            constants: counters(parameters.first, parameters.polynomial)
                .take(parameters.rounds)
                .map(|counter| constant(counter, state_bits))
                .collect(),
            restored: lookup::inverse(&substituted),
            substituted,
            returned: BitMoves::new(&lookup::inverse(&destinations)),
            moved: BitMoves::new(&destinations),
        }
    }

    /// π_t, on the state's bits from bit 0.
    pub fn permute(&self, state: &mut [bool]) {
        let mut wide = wide_of(state);
        for constant in &self.constants {
            [_, _, wide] = self.layers(Direction::Forward, constant, &wide);
        }
        write_wide(&wide, state);
    }

    /// The inverse of π_t: each step undone, the last one first.
    pub fn unpermute(&self, state: &mut [bool]) {
        let mut wide = wide_of(state);
        for constant in self.constants.iter().rev() {
            [_, _, wide] = self.layers(Direction::Back, constant, &wide);
        }
        write_wide(&wide, state);
    }

    /// The first rounds from the state with this image, as many as asked
    /// for, or all if there are fewer. The inverse begins with the last.
    pub fn trace(&self, direction: Direction, rounds: usize, image: &[u8]) -> Vec<Round> {
        let mut numbered: Vec<(usize, &Wide)> = (1..).zip(&self.constants).collect();
        if direction == Direction::Back {
            numbered.reverse();
        }
        let mut wide = wide_of(&unpack(Order::LowestFirst, image));
        let mut traced = Vec::new();
        for (number, constant) in numbered.into_iter().take(rounds) {
            let layers = self.layers(direction, constant, &wide);
            let added = self.image_of(constant);
            traced.push(Round {
                number,
                counter: added[0],
                reversed: added[added.len() - 1],
                before: self.image_of(&wide),
                layers: layers.map(|layer| self.image_of(&layer)),
            });
            [_, _, wide] = layers;
        }
        traced
    }

    /// One round, or its inverse: the states after its three layers, in the
    /// order in which they are applied.
    fn layers(&self, direction: Direction, constant: &Wide, wide: &Wide) -> [Wide; 3] {
        match direction {
            Direction::Forward => {
                let added = sum(wide, constant);
                let replaced = substitute(&added, &self.substituted);
                [added, replaced, self.moved.apply(&replaced)]
            }
            Direction::Back => {
                let returned = self.returned.apply(wide);
                let restored = substitute(&returned, &self.restored);
                [returned, restored, sum(&restored, constant)]
            }
        }
    }

    /// The image of a state: its bytes, without the bits past t.
    fn image_of(&self, wide: &Wide) -> Vec<u8> {
        let bytes = wide.map(u64::to_le_bytes);
        bytes.as_flattened()[..self.state_bits / 8].to_vec()
    }
}

/// sBoxLayer (clause 5.3.4.3), two nibbles at a time, forward or back by the
/// table given.
fn substitute(wide: &Wide, table: &[u8]) -> Wide {
    wide.map(|word| u64::from_le_bytes(word.to_le_bytes().map(|byte| table[usize::from(byte)])))
}

/// Bits that change places, made ready for bytes: where the bits of each
/// byte value come to lie, for each place that a byte can have.
struct BitMoves {
    /// For each place, by the value of the byte there.
    spread: Vec<[Wide; 256]>,
}

impl BitMoves {
    /// The moves that take bit j to `destinations[j]`.
    fn new(destinations: &[usize]) -> BitMoves {
        let spread = |eight: &[usize]| {
            std::array::from_fn(|byte| {
                let set = (0..8).filter(|bit| byte >> bit & 1 == 1);
                with_bits(set.map(|bit| eight[bit]))
            })
        };
        BitMoves {
            spread: destinations.chunks_exact(8).map(spread).collect(),
        }
    }

    /// The state with every bit moved.
    fn apply(&self, wide: &Wide) -> Wide {
        let bytes = wide.map(u64::to_le_bytes);
        let mut moved = [0; 5];
        for (spread, &byte) in self.spread.iter().zip(bytes.as_flattened()) {
            moved = sum(&moved, &spread[usize::from(byte)]);
        }
        moved
    }
}

/// pLayer (clause 5.3.4.4) as a table: the place that each bit goes to.
pub fn destinations(state_bits: usize) -> Vec<usize> {
    let last = state_bits - 1;
    (0..last)
        .map(|j| j * (state_bits / 4) % last)
        .chain([last])
        .collect()
}

/// The values of the round counter, without end (clause 5.3.4.2). An
/// exponent e of the polynomial takes the bit that entered e steps before
/// the new one, and that bit now stands at place e - 1.
pub fn counters(first: u8, polynomial: &'static [u32]) -> impl Iterator<Item = u8> {
    let width = polynomial[0];
    successors(Some(u32::from(first)), move |&value| {
        let taps = polynomial.iter().filter(|&&exponent| exponent > 0);
        let entering = taps.fold(0, |sum, exponent| sum ^ value >> (exponent - 1) & 1);
        Some((value << 1 | entering) % (1 << width))
    })
    .map(|value| value as u8)
}

/// What cAddition adds: the counter in the lowest bits, and the same bits
/// counted from the other end of the state.
fn constant(counter: u8, state_bits: usize) -> Wide {
    let set = (0..8).filter(|bit| counter >> bit & 1 == 1);
    with_bits(set.flat_map(|bit| [bit, state_bits - 1 - bit]))
}

/// The table for bytes that substitutes both nibbles.
fn on_both_nibbles(nibbles: &[u8; 16]) -> Vec<u8> {
    (0..256)
        .map(|byte| nibbles[byte / 16] << 4 | nibbles[byte % 16])
        .collect()
}

/// The exclusive or of two states.
fn sum(a: &Wide, b: &Wide) -> Wide {
    std::array::from_fn(|word| a[word] ^ b[word])
}

/// The state with ones at the places given, each of them once.
fn with_bits(places: impl Iterator<Item = usize>) -> Wide {
    places.fold([0; 5], |mut wide, place| {
        wide[place / 64] |= 1 << (place % 64);
        wide
    })
}

/// The wide number of a list of bits.
fn wide_of(state: &[bool]) -> Wide {
    with_bits((0..state.len()).filter(|&place| state[place]))
}

/// Writes a wide number back over the state's bits.
fn write_wide(wide: &Wide, state: &mut [bool]) {
    for (place, bit) in state.iter_mut().enumerate() {
        *bit = wide[place / 64] >> (place % 64) & 1 == 1;
    }
}

#[cfg(test)]
mod tests {
    use super::*;

    #[test]
    fn the_counter_of_the_smallest_state_begins_as_known() {
        let values: Vec<u8> = counters(0x05, &[6, 5, 0]).take(5).collect();
        assert_eq!(values, [0x05, 0x0a, 0x14, 0x29, 0x13]);
    }

    /// A polynomial that is primitive runs through all values but zero, and
    /// the width is the least that can count the rounds.
    #[test]
    fn counters_run_through_all_values_but_zero() {
        for row in &TABLE_9 {
            let width = row.polynomial[0];
            assert!(row.rounds <= 1 << width && row.rounds > 1 << (width - 1));
            let all = (1 << width) - 1;
            let mut values: Vec<u8> = counters(row.first, row.polynomial).take(all).collect();
            values.sort_unstable();
            let nonzero: Vec<u8> = (1..=all as u8).collect();
            assert_eq!(values, nonzero, "{} bits", row.state_bits);
        }
    }

    #[test]
    fn a_counter_is_added_at_both_ends_of_the_state() {
        let set: Vec<usize> = (0..320)
            .filter(|place| constant(0x05, 88)[place / 64] >> (place % 64) & 1 == 1)
            .collect();
        assert_eq!(set, [0, 2, 85, 87]);
    }

    /// What the taps of a row read in a reversed counter: the tap at bit k of
    /// the counter reads bit 7 - k of the byte.
    fn mirrored_taps(row: &Parameters, reversed: u8) -> u8 {
        let taps = row.polynomial.iter().filter(|&&exponent| exponent > 0);
        taps.fold(0, |sum, exponent| sum ^ reversed >> (8 - exponent) & 1)
    }

    /// The reversed counter after this one, from its own bits alone. Its bits
    /// are the upper ones of the byte, from bit 8 - w. They shift right, the
    /// lowest falls out, and the taps give the new top bit.
    fn next_reversed(row: &Parameters, reversed: u8) -> u8 {
        let lowest = 8 - row.polynomial[0];
        let kept = reversed >> 1 >> lowest << lowest;
        mirrored_taps(row, reversed) << 7 | kept
    }

    /// The reversed counter before this one, from its own bits alone. They
    /// shift left, and the new lowest bit is the one with which the taps give
    /// the bit that falls out at the top.
    fn previous_reversed(row: &Parameters, reversed: u8) -> u8 {
        let lowest = 8 - row.polynomial[0];
        let fallen = reversed >> 7;
        [0, 1 << lowest]
            .map(|entering| reversed << 1 | entering)
            .into_iter()
            .find(|&before| mirrored_taps(row, before) == fallen)
            .expect("a tap reads the lowest bit")
    }

    /// Stepped so, a reversed counter is in each round what reversing the
    /// counter gives, both ways through all rounds.
    #[test]
    fn reversed_counters_step_from_their_own_bits() {
        type Step = fn(&Parameters, u8) -> u8;
        let ways: [(Direction, Step); 2] = [
            (Direction::Forward, next_reversed),
            (Direction::Back, previous_reversed),
        ];
        for row in &TABLE_9 {
            let zero = vec![0; row.state_bits / 8];
            for (direction, step) in ways {
                let rounds = of_size(row.state_bits).trace(direction, row.rounds, &zero);
                assert_eq!(rounds.len(), row.rounds, "{} bits", row.state_bits);
                let mut stepped = rounds[0].reversed;
                for round in rounds {
                    let place = format!("{direction:?}, {} bits, {round:?}", row.state_bits);
                    assert_eq!(round.reversed, round.counter.reverse_bits(), "{place}");
                    assert_eq!(round.reversed, stepped, "{place}");
                    stepped = step(row, stepped);
                }
            }
        }
    }

    #[test]
    fn bits_go_to_the_known_places() {
        let table = destinations(88);
        for (from, to) in [(0, 0), (1, 22), (4, 1), (86, 65), (87, 87)] {
            assert_eq!(table[from], to, "bit {from}");
        }
    }

    #[test]
    fn bits_return_from_where_they_went() {
        for row in &TABLE_9 {
            let table = destinations(row.state_bits);
            let back = lookup::inverse(&table);
            for (j, &place) in table.iter().enumerate() {
                assert_eq!(back[place], j, "{} bits", row.state_bits);
            }
        }
    }
}
