//! The PHOTON permutations (clause 5.2.4) on states of d × d cells, kept as
//! one row-by-row list.

use std::iter::successors;
use std::sync::OnceLock;

use crate::field::Field;
use crate::lookup;
use crate::matrix::{ColumnSums, Matrix};
use crate::sbox;

/// N_r, the same for all sizes.
const ROUNDS: usize = 12;

/// The cell size s and the coefficients Z of each variant (Table 1). There
/// are d of them, and d² × s bits in the state.
const TABLE_1: [(u32, &[u8]); 5] = [
    (4, &[1, 2, 9, 9, 2]),
    (4, &[1, 2, 8, 5, 8, 2]),
    (4, &[1, 4, 6, 1, 1, 6, 4]),
    (4, &[2, 4, 2, 11, 2, 8, 5, 6]),
    (8, &[2, 3, 1, 2, 1, 4]),
];

/// One PHOTON permutation, with the tables that its rounds look up.
pub struct Photon {
    /// d.
    size: usize,
    /// s.
    cell_bits: usize,
    /// What AddConstants adds in each round, one cell for each row.
    constants: Vec<Vec<u8>>,
    /// The S-box and its inverse.
    substituted: Vec<u8>,
    restored: Vec<u8>,
    /// MixColumnsSerial and its inverse.
    mixed: ColumnSums,
    unmixed: ColumnSums,
}

/// The permutation of states with this many bits. Panics if there is none.
pub fn of_size(state_bits: usize) -> &'static Photon {
    static ALL: OnceLock<Vec<Photon>> = OnceLock::new();
    ALL.get_or_init(|| TABLE_1.map(|(s, z)| Photon::new(s, z)).into())
        .iter()
        .find(|photon| photon.state_bits() == state_bits)
        .expect("PHOTON has states of 100, 144, 196, 256 and 288 bits")
}

impl Photon {
    fn new(cell_bits: u32, coefficients: &[u8]) -> Photon {
        let (field, substituted) = match cell_bits {
            4 => (Field::of_nibbles(), sbox::PRESENT.to_vec()),
            8 => (Field::of_bytes(), sbox::aes()),
            _ => panic!("PHOTON has cells of 4 and of 8 bits"),
        };
        let mixing = mixing_matrix(&field, coefficients);
        let unmixing = mixing
            .inverse(&field)
            .expect("the coefficients of Table 1 make an invertible matrix");
        Photon {
            size: coefficients.len(),
            cell_bits: cell_bits as usize,
            constants: constants(coefficients.len()),
            restored: lookup::inverse(&substituted),
            substituted,
            mixed: ColumnSums::new(&field, &mixing),
            unmixed: ColumnSums::new(&field, &unmixing),
        }
    }

    /// t.
    fn state_bits(&self) -> usize {
        self.size * self.size * self.cell_bits
    }

    /// P_t, on the state's bits from the leftmost.
    pub fn permute(&self, state: &mut [bool]) {
        let mut cells = self.cells_of(state);
        for constants in &self.constants {
            self.add_constants(&mut cells, constants);
            substitute(&mut cells, &self.substituted);
            for (i, row) in cells.chunks_exact_mut(self.size).enumerate() {
                row.rotate_left(i);
            }
            self.mixed.apply(&mut cells);
        }
        self.write_cells(&cells, state);
    }

    /// The inverse of P_t: each step undone, the last one first.
    pub fn unpermute(&self, state: &mut [bool]) {
        let mut cells = self.cells_of(state);
        for constants in self.constants.iter().rev() {
            self.unmixed.apply(&mut cells);
            for (i, row) in cells.chunks_exact_mut(self.size).enumerate() {
                row.rotate_right(i);
            }
            substitute(&mut cells, &self.restored);
            self.add_constants(&mut cells, constants);
        }
        self.write_cells(&cells, state);
    }

    /// AddConstants (clause 5.2.4.2): only the first column changes.
    fn add_constants(&self, cells: &mut [u8], constants: &[u8]) {
        for (row, constant) in cells.chunks_exact_mut(self.size).zip(constants) {
            row[0] ^= constant;
        }
    }

    /// The cells of a state; the leftmost bit of a cell is its highest.
    fn cells_of(&self, state: &[bool]) -> Vec<u8> {
        state
            .chunks_exact(self.cell_bits)
            .map(|cell| cell.iter().fold(0, |sum, &bit| sum << 1 | u8::from(bit)))
            .collect()
    }

    /// Writes cells back over the state's bits.
    fn write_cells(&self, cells: &[u8], state: &mut [bool]) {
        for (cell, bits) in cells.iter().zip(state.chunks_exact_mut(self.cell_bits)) {
            for (places, bit) in bits.iter_mut().rev().enumerate() {
                *bit = cell >> places & 1 == 1;
            }
        }
    }
}

/// SubCells (clause 5.2.4.3), forward or back by the table given.
fn substitute(cells: &mut [u8], table: &[u8]) {
    for cell in cells {
        *cell = table[usize::from(*cell)];
    }
}

/// A^d, the matrix of MixColumnsSerial (clause 5.2.4.5).
pub fn mixing_matrix(field: &Field, coefficients: &[u8]) -> Matrix {
    Matrix::serial(coefficients).power(field, coefficients.len())
}

/// For each round, what AddConstants adds to the first cell of each row.
pub fn constants(size: usize) -> Vec<Vec<u8>> {
    let rows = row_constants(size);
    round_constants()
        .iter()
        .map(|round| rows.iter().map(|row| round ^ row).collect())
        .collect()
}

/// RC(v) for v from 1 (clause 5.2.4.2).
pub fn round_constants() -> Vec<u8> {
    register(4, |x| x[3] == x[2]).skip(1).take(ROUNDS).collect()
}

/// IC_d(i) for i from 0, by the feedback functions of Table 2.
pub fn row_constants(size: usize) -> Vec<u8> {
    let (length, feedback): (usize, Feedback) = match size {
        5 => (3, |x| !(x[2] || x[1])),
        6 => (3, |x| !x[2]),
        7 => (3, |x| x[2] == x[0]),
        8 => (4, |x| !x[3]),
        _ => panic!("PHOTON has squares of 5, 6, 7 and 8 rows"),
    };
    register(length, feedback).take(size).collect()
}

/// The bit that enters a register next, from its bits x_0, x_1 and up.
type Feedback = fn([bool; 4]) -> bool;

/// The values X_0, X_1 and on of a shift register, without end.
fn register(length: usize, feedback: Feedback) -> impl Iterator<Item = u8> {
    successors(Some(0), move |&value: &u8| {
        let bits = [0, 1, 2, 3].map(|place| value >> place & 1 == 1);
        Some((value << 1 | u8::from(feedback(bits))) & ((1 << length) - 1))
    })
}

#[cfg(test)]
mod tests {
    use super::*;

    #[test]
    fn row_constants_have_cycles_of_their_own_length() {
        let lists: [&[u8]; 4] = [
            &[0, 1, 3, 6, 4],
            &[0, 1, 3, 7, 6, 4],
            &[0, 1, 2, 5, 3, 6, 4],
            &[0, 1, 3, 7, 15, 14, 12, 8],
        ];
        for list in lists {
            assert_eq!(row_constants(list.len()), list);
        }
    }

    #[test]
    fn round_constants_are_those_of_the_text() {
        let list = [1, 3, 7, 14, 13, 11, 6, 12, 9, 2, 5, 10];
        assert_eq!(round_constants(), list);
    }

    #[test]
    fn tables_fit_the_five_sizes() {
        let sizes = TABLE_1.map(|(s, z)| z.len() * z.len() * s as usize);
        assert_eq!(sizes, [100, 144, 196, 256, 288]);
    }
}
