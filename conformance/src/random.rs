//! Random numbers, bytes and choices.

use crate::generator::Generator;
use crate::settings;

/// A source of random values that begins at the seed and the test's name, so
/// that a test has the same values alone and among others.
pub struct Random {
    generator: Generator,
}

impl Random {
    /// The source of the test with this name.
    pub fn of_test(name: &str) -> Random {
        let mixed = name.bytes().fold(settings::seed(), |mixed, byte| {
            (mixed ^ u64::from(byte)).wrapping_mul(0x0000_0100_0000_01b3)
        });
        Random {
            generator: Generator::new(mixed.max(1)),
        }
    }

    /// The given number of bytes.
    pub fn bytes(&mut self, count: usize) -> Vec<u8> {
        self.generator.bytes(count)
    }

    /// As many bytes as the array has.
    pub fn array<const N: usize>(&mut self) -> [u8; N] {
        self.bytes(N).try_into().expect("N bytes")
    }

    /// A number below the bound.
    pub fn below(&mut self, bound: usize) -> usize {
        (u64::from_le_bytes(self.array()) % bound as u64) as usize
    }

    /// True once in `times` times, on average.
    pub fn once_in(&mut self, times: usize) -> bool {
        self.below(times) == 0
    }

    /// One of the values.
    pub fn pick<T: Copy>(&mut self, values: &[T]) -> T {
        values[self.below(values.len())]
    }

    /// Cuts a message into pieces of fewer than `bound` bytes, some of them
    /// empty.
    pub fn cut<'a>(&mut self, message: &'a [u8], bound: usize) -> Vec<&'a [u8]> {
        let mut pieces = Vec::new();
        let mut rest = message;
        while !rest.is_empty() {
            let (piece, after) = rest.split_at(self.below(bound).min(rest.len()));
            pieces.push(piece);
            rest = after;
        }
        pieces
    }
}
