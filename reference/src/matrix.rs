//! Square matrices over a field of cells.

use crate::field::Field;

/// A square matrix, by rows.
#[derive(Clone, Debug, PartialEq, Eq)]
pub struct Matrix {
    /// The rows from the top, each from the left.
    pub rows: Vec<Vec<u8>>,
}

impl Matrix {
    /// The matrix that leaves every column as it is.
    pub fn identity(size: usize) -> Matrix {
        let row = |i| (0..size).map(|j| u8::from(i == j)).collect();
        Matrix {
            rows: (0..size).map(row).collect(),
        }
    }

    /// `Serial(Z)` of clause 5.2.4.5: every cell of a column moves up one,
    /// and the last becomes the combination with these coefficients.
    pub fn serial(coefficients: &[u8]) -> Matrix {
        let mut rows = Matrix::identity(coefficients.len()).rows;
        rows.remove(0);
        rows.push(coefficients.to_vec());
        Matrix { rows }
    }

    /// The number of rows and columns.
    pub fn size(&self) -> usize {
        self.rows.len()
    }

    /// This matrix times another: the other one acts on a column first.
    pub fn times(&self, field: &Field, other: &Matrix) -> Matrix {
        let entry = |row: &Vec<u8>, j: usize| {
            row.iter()
                .zip(&other.rows)
                .fold(0, |sum, (&a, right)| sum ^ field.product(a, right[j]))
        };
        let columns = 0..self.size();
        Matrix {
            rows: self
                .rows
                .iter()
                .map(|row| columns.clone().map(|j| entry(row, j)).collect())
                .collect(),
        }
    }

    /// This matrix multiplied with itself, `exponent` factors.
    pub fn power(&self, field: &Field, exponent: usize) -> Matrix {
        (0..exponent).fold(Matrix::identity(self.size()), |power, _| {
            power.times(field, self)
        })
    }

    /// The inverse by Gaussian elimination; none if there is none.
    pub fn inverse(&self, field: &Field) -> Option<Matrix> {
        let mut left = self.rows.clone();
        let mut right = Matrix::identity(self.size()).rows;
        for k in 0..self.size() {
            // Rows above k are finished, so a pivot can only come from k on.
            let pivot = (k..self.size()).find(|&i| left[i][k] != 0)?;
            let factor = field.reciprocal(left[pivot][k])?;
            for rows in [&mut left, &mut right] {
                rows.swap(k, pivot);
                rows[k] = scaled(field, factor, &rows[k]);
            }
            for i in (0..self.size()).filter(|&i| i != k) {
                let factor = left[i][k];
                for rows in [&mut left, &mut right] {
                    let multiple = scaled(field, factor, &rows[k]);
                    add(&mut rows[i], &multiple);
                }
            }
        }
        Some(Matrix { rows: right })
    }
}

/// A matrix made ready for columns: the product of a column is a sum over
/// its cells, so the summand of each cell value in each row stands ready.
pub struct ColumnSums {
    size: usize,
    elements: usize,
    /// At `row * elements + cell`: a whole column, its cell i in byte i.
    summands: Vec<u64>,
}

impl ColumnSums {
    /// The sums of a matrix of at most eight rows.
    pub fn new(field: &Field, matrix: &Matrix) -> ColumnSums {
        let summand = |row: usize, cell: usize| {
            let product = |i: usize| u64::from(field.product(matrix.rows[i][row], cell as u8));
            (0..matrix.size()).fold(0, |column, i| column | product(i) << (8 * i))
        };
        let of_row = |row| (0..field.elements()).map(move |cell| summand(row, cell));
        ColumnSums {
            size: matrix.size(),
            elements: field.elements(),
            summands: (0..matrix.size()).flat_map(of_row).collect(),
        }
    }

    /// The product of one column, given from its top: cell i in byte i.
    pub fn product(&self, column: impl Iterator<Item = u8>) -> [u8; 8] {
        let sum = column.enumerate().fold(0, |sum, (i, cell)| {
            sum ^ self.summands[i * self.elements + usize::from(cell)]
        });
        sum.to_le_bytes()
    }

    /// Multiplies each column of a square of cells by the matrix. The square is
    /// one row-by-row list.
    pub fn apply(&self, cells: &mut [u8]) {
        for j in 0..self.size {
            let column = self.product((0..self.size).map(|i| cells[i * self.size + j]));
            for i in 0..self.size {
                cells[i * self.size + j] = column[i];
            }
        }
    }
}

/// A row with every cell multiplied by the factor.
fn scaled(field: &Field, factor: u8, row: &[u8]) -> Vec<u8> {
    row.iter()
        .map(|&cell| field.product(factor, cell))
        .collect()
}

/// Adds a row to another; sums are exclusive ors.
fn add(row: &mut [u8], other: &[u8]) {
    for (cell, &term) in row.iter_mut().zip(other) {
        *cell ^= term;
    }
}

#[cfg(test)]
mod tests {
    use super::*;

    #[test]
    fn serial_moves_cells_up_and_fills_the_last() {
        let serial = Matrix::serial(&[1, 2, 9, 9, 2]);
        let column = |cells: [u8; 5]| Matrix {
            rows: cells.map(|cell| vec![cell, 0, 0, 0, 0]).to_vec(),
        };
        assert_eq!(
            serial.times(&Field::of_nibbles(), &column([0, 0, 0, 0, 1])),
            column([0, 0, 0, 1, 2])
        );
    }

    #[test]
    fn elimination_exchanges_rows_where_it_must() {
        let rows = vec![vec![0, 3, 1], vec![5, 0, 7], vec![5, 0, 2]];
        let matrix = Matrix { rows };
        let field = Field::of_nibbles();
        let inverse = matrix.inverse(&field).expect("the rows are independent");
        assert_eq!(matrix.times(&field, &inverse), Matrix::identity(3));
        assert_eq!(inverse.times(&field, &matrix), Matrix::identity(3));
    }

    #[test]
    fn dependent_rows_have_no_inverse() {
        let field = Field::of_nibbles();
        let row = vec![1, 2, 3];
        let sum = vec![1 ^ 4, 2 ^ 5, 3 ^ 6];
        let matrix = Matrix {
            rows: vec![row, vec![4, 5, 6], sum],
        };
        assert_eq!(matrix.inverse(&field), None);
    }
    /// The sums of a matrix give what the product of matrices gives.
    #[test]
    fn sums_of_columns_are_products() {
        let field = Field::of_bytes();
        let matrix = Matrix {
            rows: vec![vec![2, 3, 7], vec![0, 0x8d, 1], vec![0xff, 4, 0]],
        };
        let mut cells = vec![0x53, 0, 1, 0xca, 0x80, 2, 0xff, 0x1b, 0];
        let square = Matrix {
            rows: cells.chunks(3).map(<[u8]>::to_vec).collect(),
        };
        let expected = matrix.times(&field, &square).rows.concat();
        ColumnSums::new(&field, &matrix).apply(&mut cells);
        assert_eq!(cells, expected);
    }
}
