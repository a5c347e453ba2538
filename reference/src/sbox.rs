//! The substitution tables.

use crate::field::Field;

/// The S-box of PRESENT, for PHOTON's 4-bit cells (Table 7).
pub const PRESENT: [u8; 16] = [
    0xc, 0x5, 0x6, 0xb, 0x9, 0x0, 0xa, 0xd, 0x3, 0xe, 0xf, 0x8, 0x4, 0x7, 0x1, 0x2,
];

/// The S-box of SPONGENT (Table 10).
pub const SPONGENT: [u8; 16] = [
    0xe, 0xd, 0xb, 0x0, 0x2, 0x1, 0x4, 0xf, 0x7, 0xa, 0x8, 0x5, 0x9, 0xc, 0x3, 0x6,
];

/// The S-box of AES, for PHOTON's 8-bit cells (Table 8), by its own rule:
/// the reciprocal in the field of bytes, 0 kept, then an affine map of the
/// bits.
pub fn aes() -> Vec<u8> {
    let field = Field::of_bytes();
    (0..=255)
        .map(|byte| affine(field.reciprocal(byte).unwrap_or(0)))
        .collect()
}

/// Each bit of the result is the sum of five neighbouring bits of the byte,
/// round its end, and of a constant's bit.
fn affine(byte: u8) -> u8 {
    (0..5).fold(0x63, |sum, places| sum ^ byte.rotate_left(places))
}
