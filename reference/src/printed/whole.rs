//! The whole message: the examples of Annex B in one call and in pieces, the
//! empty message, and a call for each way to be refused. Outputs hold bytes
//! a0 before.

use super::{annex_b_message, hexadecimal, lent, name, size, Cases, LESAMNTA_LW};
use crate::running::write_front;
use crate::variants::VARIANTS;
use crate::{digest, end_state};

pub fn add(cases: &mut Cases) {
    cases.heading("Annex B: digest and end state of a whole message");
    for variant in &VARIANTS {
        let message = annex_b_message(variant);
        for image in [false, true] {
            add_whole(cases, image, variant.number, message, size(variant, image));
        }
    }
    cases.heading("the empty message; an output with two bytes more, which stay");
    add_whole(cases, false, 1, b"", 10);
    add_whole(cases, false, LESAMNTA_LW, b"", 32);
    add_whole(cases, false, 1, b"\xab\xcd", 12);
    cases.heading("refused: a byte too few, no variant");
    for (image, number, bytes) in [
        (false, 1, 9),
        (true, 1, 12),
        (false, 0, 36),
        (true, 256 + 1, 36),
    ] {
        add_whole(cases, image, number, b"\xab\xcd", bytes);
    }
}

/// One call, with an output of so many bytes.
pub fn add_whole(cases: &mut Cases, image: bool, number: u32, message: &[u8], bytes: usize) {
    let result = match image {
        true => end_state(number, message),
        false => digest(number, message),
    };
    add_result(cases, name(image), number, message, "-", result, bytes);
}

/// A result of a message, of whose last byte `bits` bits count, a dash for all,
/// into an output of so many bytes.
pub fn add_result(
    cases: &mut Cases,
    operation: &str,
    number: u32,
    message: &[u8],
    bits: &str,
    result: Result<Vec<u8>, u8>,
    bytes: usize,
) {
    let before = lent(bytes);
    let mut out = before.clone();
    let status = match result {
        Ok(result) => write_front(&result, &mut out),
        Err(refusal) => refusal,
    };
    let [message, before, out] = [message, &before, &out].map(hexadecimal);
    cases.add(
        format!("{operation} {number} {message} {bits} {before}"),
        format!("{status} {out}"),
    );
}
