//! The lost block: the known value, a block of a message for each variant, the
//! places of Lesamnta-LW, and a call for each other way to be refused. Outputs
//! hold bytes a0 before.

use super::{hexadecimal, lent, Cases, LESAMNTA_LW};
use crate::recover::recover;
use crate::variants::VARIANTS;
use crate::{end_state, permute};

pub const MESSAGE: &[u8] = b"Bar 7 hold.";

/// An output that is long enough for any block.
pub const LONG: usize = 17;

pub fn add(cases: &mut Cases) {
    cases.heading(
        "the lost block: an image that no block leads to, and before that an output too short",
    );
    let unreached = unreached();
    for bytes in [0, 1] {
        add_line(cases, 6, b"", 0, &unreached, bytes);
    }
    cases.heading("the block at place 1 of a message");
    for variant in &VARIANTS {
        let image = end_of(variant.number, MESSAGE);
        add_line(cases, variant.number, MESSAGE, 1, &image, LONG);
    }
    cases.heading("refused: a place past the last, an image a byte too short, no variant");
    let image = end_of(1, MESSAGE);
    add_line(cases, 1, MESSAGE, 5, &image, LONG);
    add_line(cases, 1, MESSAGE, 1, &image[..12], LONG);
    add_line(cases, 0, MESSAGE, 1, &image, LONG);
    add_last_place(cases);
}

/// Lesamnta-LW's block is looked for at the last place alone, which is 1 here.
/// What is wrong first is told; no block leads to bytes a0.
fn add_last_place(cases: &mut Cases) {
    cases.heading("Lesamnta-LW, of which the block at the last place alone is found");
    let image = end_of(LESAMNTA_LW, MESSAGE);
    let mut add = |place, image: &[u8], bytes| {
        add_line(cases, LESAMNTA_LW, MESSAGE, place, image, bytes);
    };
    add(2, &image[..31], LONG);
    add(0, &image, LONG);
    add(0, &image[..31], 15);
    add(1, &image[..31], 15);
    add(1, &image, 15);
    add(1, &[0xa0; 32], LONG);
}

pub fn end_of(number: u32, message: &[u8]) -> Vec<u8> {
    end_state(number, message).expect("the variant exists and the message is short")
}

/// The image of SPONGENT-88 that no block leads to from its start.
pub fn unreached() -> [u8; 11] {
    let mut image = [0; 11];
    image[1] = 1;
    permute(6, &mut image);
    image
}

fn add_line(
    cases: &mut Cases,
    number: u32,
    message: &[u8],
    place: usize,
    image: &[u8],
    bytes: usize,
) {
    let call = |out: &mut [u8]| recover(number, message, place, image, out);
    add_recover(cases, [message, image], number, "-", place, bytes, call);
}

/// One call, with an output of so many bytes; of the message's last byte
/// `bits` bits count, a dash for all.
pub fn add_recover(
    cases: &mut Cases,
    [message, image]: [&[u8]; 2],
    number: u32,
    bits: &str,
    place: usize,
    bytes: usize,
    call: impl Fn(&mut [u8]) -> u8,
) {
    let before = lent(bytes);
    let mut out = before.clone();
    let status = call(&mut out);
    let [message, image, before, out] = [message, image, &before, &out].map(hexadecimal);
    cases.add(
        format!("recover {number} {message} {bits} {place} {image} {before}"),
        format!("{status} {out}"),
    );
}
