//! Tables 3 to 6 and 8, Figures 2 to 6 and the round constants of clause
//! 6.2.5.3.2, typed from the standard, against what the rules generate.

mod hexadecimal;

use hexadecimal::bytes;
use wickslate_reference::field::Field;
use wickslate_reference::matrix::Matrix;
use wickslate_reference::{lesamnta, lookup, photon, sbox};

const TABLE_3: &str = "
    1 3 7 14 13 11 6 12 9 2 5 10
    0 2 6 15 12 10 7 13 8 3 4 11
    2 0 4 13 14 8 5 15 10 1 6 9
    7 5 1 8 11 13 0 10 15 4 3 12
    5 7 3 10 9 15 2 8 13 6 1 14";

const TABLE_4: &str = "
    1 3 7 14 13 11 6 12 9 2 5 10
    0 2 6 15 12 10 7 13 8 3 4 11
    2 0 4 13 14 8 5 15 10 1 6 9
    6 4 0 9 10 12 1 11 14 5 2 13
    7 5 1 8 11 13 0 10 15 4 3 12
    5 7 3 10 9 15 2 8 13 6 1 14";

const TABLE_5: &str = "
    1 3 7 14 13 11 6 12 9 2 5 10
    0 2 6 15 12 10 7 13 8 3 4 11
    3 1 5 12 15 9 4 14 11 0 7 8
    4 6 2 11 8 14 3 9 12 7 0 15
    2 0 4 13 14 8 5 15 10 1 6 9
    7 5 1 8 11 13 0 10 15 4 3 12
    5 7 3 10 9 15 2 8 13 6 1 14";

const TABLE_6: &str = "
    1 3 7 14 13 11 6 12 9 2 5 10
    0 2 6 15 12 10 7 13 8 3 4 11
    2 0 4 13 14 8 5 15 10 1 6 9
    6 4 0 9 10 12 1 11 14 5 2 13
    14 12 8 1 2 4 9 3 6 13 10 5
    15 13 9 0 3 5 8 2 7 12 11 4
    13 15 11 2 1 7 10 0 5 14 9 6
    9 11 15 6 5 3 14 4 1 10 13 2";

const TABLE_8: &str = "
    63 7c 77 7b f2 6b 6f c5 30 01 67 2b fe d7 ab 76
    ca 82 c9 7d fa 59 47 f0 ad d4 a2 af 9c a4 72 c0
    b7 fd 93 26 36 3f f7 cc 34 a5 e5 f1 71 d8 31 15
    04 c7 23 c3 18 96 05 9a 07 12 80 e2 eb 27 b2 75
    09 83 2c 1a 1b 6e 5a a0 52 3b d6 b3 29 e3 2f 84
    53 d1 00 ed 20 fc b1 5b 6a cb be 39 4a 4c 58 cf
    d0 ef aa fb 43 4d 33 85 45 f9 02 7f 50 3c 9f a8
    51 a3 40 8f 92 9d 38 f5 bc b6 da 21 10 ff f3 d2
    cd 0c 13 ec 5f 97 44 17 c4 a7 7e 3d 64 5d 19 73
    60 81 4f dc 22 2a 90 88 46 ee b8 14 de 5e 0b db
    e0 32 3a 0a 49 06 24 5c c2 d3 ac 62 91 95 e4 79
    e7 c8 37 6d 8d d5 4e a9 6c 56 f4 ea 65 7a ae 08
    ba 78 25 2e 1c a6 b4 c6 e8 dd 74 1f 4b bd 8b 8a
    70 3e b5 66 48 03 f6 0e 61 35 57 b9 86 c1 1d 9e
    e1 f8 98 11 69 d9 8e 94 9b 1e 87 e9 ce 55 28 df
    8c a1 89 0d bf e6 42 68 41 99 2d 0f b0 54 bb 16";

const FIGURE_2: &str = "
    1 2 9 9 2
    2 5 3 8 13
    13 11 10 12 1
    1 15 2 3 14
    14 14 8 5 12";

const FIGURE_3: &str = "
    1 2 8 5 8 2
    2 5 1 2 6 12
    12 9 15 8 8 13
    13 5 11 3 10 1
    1 15 13 14 11 8
    8 2 3 3 2 8";

const FIGURE_4: &str = "
    1 4 6 1 1 6 4
    4 2 15 2 5 10 5
    5 3 15 10 7 8 13
    13 4 11 2 7 15 9
    9 15 7 2 11 4 13
    13 8 7 10 15 3 5
    5 10 5 2 15 2 4";

const FIGURE_5: &str = "
    2 4 2 11 2 8 5 6
    12 9 8 13 7 7 5 2
    4 4 13 13 9 4 13 9
    1 6 5 1 12 13 15 14
    15 12 9 13 14 5 14 13
    9 14 5 15 4 12 9 6
    12 2 2 10 3 1 1 14
    15 1 13 10 5 10 2 3";

const FIGURE_6: &str = "
    2 3 1 2 1 4
    8 14 7 9 6 17
    34 59 31 37 24 66
    132 228 121 155 103 11
    22 153 239 111 144 75
    150 203 210 121 36 167";

/// As they are printed: one has seven digits.
const ROUND_CONSTANTS: &str = "
    a432337f 945e1f8f 92539a11 24b90062
    6971c64c d6e3f449 2c2f0da9 33769295
    eb506df2 708cebfe b83ab7bf 97df0f17
    9223b802 7fa29140 0ff45228 01fe8a45
    ed016ee8 1da02ddd ee8aba1b 46c4c223
    53cd0d24 d1b46d24 c1fb4124 c3f2a4a4
    c3b39814 c3bbb82 759191b0 0eb23236
    b7fd6c86 a0d48750 141a90ea 6f65b45d
    e0d2092b 470fd445 e5df4528 1cbbe8a5
    eea9c2b4 c618f4d6 aee8345a 783be0cb
    5412e979 3c712e0f 87567c21 2619bca4
    df0efb14 c02c13e2 75e3643c d571a007
    9a766de0 134ecdbc d9a41537 9becdb46
    a556b1a8 14aad635 efabe566 abde566c
    ceb6064d f4e87f69 286e7ccd e8337039
    2bf51d27 85a6fa44 cb7913c8 196f2279";

/// The rows of a table of decimal numbers.
fn rows(table: &str) -> Vec<Vec<u8>> {
    let number = |word: &str| word.parse().expect("a number below 256");
    table
        .trim()
        .lines()
        .map(|line| line.split_whitespace().map(number).collect())
        .collect()
}

/// Each figure with its field and the coefficients of Table 1.
fn figures() -> [(&'static str, Field, &'static [u8]); 5] {
    [
        (FIGURE_2, Field::of_nibbles(), &[1, 2, 9, 9, 2]),
        (FIGURE_3, Field::of_nibbles(), &[1, 2, 8, 5, 8, 2]),
        (FIGURE_4, Field::of_nibbles(), &[1, 4, 6, 1, 1, 6, 4]),
        (FIGURE_5, Field::of_nibbles(), &[2, 4, 2, 11, 2, 8, 5, 6]),
        (FIGURE_6, Field::of_bytes(), &[2, 3, 1, 2, 1, 4]),
    ]
}

#[test]
fn registers_generate_tables_3_to_6() {
    for (table, size) in [(TABLE_3, 5), (TABLE_4, 6), (TABLE_5, 7), (TABLE_6, 8)] {
        // The tables have a line for each row, the list an entry for each round.
        let rounds = photon::constants(size);
        let by_row: Vec<Vec<u8>> = (0..size)
            .map(|row| rounds.iter().map(|round| round[row]).collect())
            .collect();
        assert_eq!(by_row, rows(table), "d = {size}");
    }
}

#[test]
fn powers_of_serial_are_figures_2_to_6() {
    for (figure, field, coefficients) in figures() {
        let matrix = photon::mixing_matrix(&field, coefficients);
        assert_eq!(matrix.rows, rows(figure));
    }
}

#[test]
fn elimination_inverts_figures_2_to_6() {
    for (figure, field, _) in figures() {
        let matrix = Matrix { rows: rows(figure) };
        let inverse = matrix.inverse(&field).expect("the matrix is invertible");
        let identity = Matrix::identity(matrix.size());
        assert_eq!(inverse.times(&field, &matrix), identity);
        assert_eq!(matrix.times(&field, &inverse), identity);
    }
}

#[test]
fn the_rule_of_aes_generates_table_8() {
    assert_eq!(sbox::aes(), bytes(TABLE_8));
    assert_eq!(sbox::aes()[0xab], 0x62);
}

#[test]
fn inverse_substitutions_lead_back() {
    for table in [
        sbox::PRESENT.to_vec(),
        sbox::SPONGENT.to_vec(),
        bytes(TABLE_8),
    ] {
        let back = lookup::inverse(&table);
        for (index, &entry) in table.iter().enumerate() {
            assert_eq!(usize::from(back[usize::from(entry)]), index);
        }
    }
}

/// The generator as the standard prints it, with the word that it adds.
fn constant_generator() -> [u32; 64] {
    let mut constants = [0; 64];
    let mut c: u32 = 0xffff_ffff;
    for i in 0..=189 {
        c = if c & 1 == 1 {
            (c >> 1) ^ 0xdbcd_cc80
        } else {
            c >> 1
        };
        if i % 3 == 0 {
            constants[i / 3] = c;
        }
    }
    constants
}

/// The register of the polynomial is the printed generator.
#[test]
fn the_polynomial_generates_what_the_printed_generator_does() {
    assert_eq!(lesamnta::round_constants(), constant_generator());
}

/// All are the printed ones but C(25), of which a digit was lost in print.
#[test]
fn round_constants_are_the_printed_ones_but_one() {
    let printed: Vec<&str> = ROUND_CONSTANTS.split_whitespace().collect();
    let generated: Vec<String> = lesamnta::round_constants()
        .iter()
        .map(|constant| format!("{constant:08x}"))
        .collect();
    assert_eq!(printed.len(), generated.len());
    let differing: Vec<(usize, &str, &str)> = (0..64)
        .map(|r| (r, printed[r], generated[r].as_str()))
        .filter(|(_, printed, generated)| printed != generated)
        .collect();
    assert_eq!(differing, [(25, "c3bbb82", "c3bbbf82")]);
}
