//! Messages that end inside a byte. The bit number stands after the bytes:
//! b7 3 are three bits of one byte, in SPONGENT 111 and in the others 101.

use super::lost::{self, add_recover, LONG, MESSAGE};
use super::running::{self, add_finish, add_read, add_start, add_update, near, words};
use super::whole::{add_result, add_whole};
use super::{hexadecimal, name, size, Cases, LESAMNTA_LW};
use crate::recover::recover_bits;
use crate::running::Running;
use crate::variants::{Variant, VARIANTS};
use crate::{digest_bits, end_state_bits};

pub fn add(cases: &mut Cases) {
    cases.heading("1 to 7 bits of a byte");
    for variant in &VARIANTS {
        for bits in 1..=7 {
            add_digest(cases, variant.number, b"\xb7", bits, size(variant, false));
        }
    }
    cases.heading("three bits of the last byte: the end state, the digest in two pieces, and the block at place 1");
    for variant in &VARIANTS {
        add_end(cases, variant, MESSAGE, 3);
    }
    cases.heading("bits that do not count; seven 0 bits, which are not the empty message");
    add_digest(cases, 1, b"\xa0", 3, 10);
    add_digest(cases, 6, b"\x07", 3, 11);
    add_digest(cases, 6, b"\x00", 7, 11);
    add_whole(cases, false, 6, b"", 11);
    cases.heading("refused, with what is refused after it");
    add_refused(cases);
    cases.heading("after a part of a byte nothing follows but the end");
    add_stages(cases);
    cases.heading("one bit less than the longest message, the longest, and one bit more");
    add_limit(cases);
    let none = add_start(cases, 0);
    add_update_bits(cases, none, b"\xff", 9);
}

fn add_digest(cases: &mut Cases, number: u32, message: &[u8], bits: u32, bytes: usize) {
    let result = digest_bits(number, message, bits);
    let bits = bits.to_string();
    add_result(cases, name(false), number, message, &bits, result, bytes);
}

fn add_end_state(cases: &mut Cases, number: u32, message: &[u8], bits: u32, bytes: usize) {
    let result = end_state_bits(number, message, bits);
    let bits = bits.to_string();
    add_result(cases, name(true), number, message, &bits, result, bytes);
}

/// The end state, the digest of the message taken in two pieces, and the block
/// at place 1.
fn add_end(cases: &mut Cases, variant: &Variant, message: &[u8], bits: u32) {
    let number = variant.number;
    add_end_state(cases, number, message, bits, size(variant, true));
    add_pieces(cases, variant, message, bits);
    let image = end_state_bits(number, message, bits);
    let image = image.expect("the variant exists and the message is short");
    add_lost(cases, number, message, bits, 1, &image, LONG);
}

/// The digest of a message in two pieces, of the last of which `bits` bits of
/// the last byte count.
fn add_pieces(cases: &mut Cases, variant: &Variant, message: &[u8], bits: u32) {
    let (first, last) = message.split_at(5);
    let begun = add_start(cases, variant.number);
    let half = add_update(cases, begun, first);
    let taken = add_update_bits(cases, half, last, bits);
    running::add_end(cases, variant, taken);
}

/// One call for a lost block, with an output of so many bytes.
fn add_lost(
    cases: &mut Cases,
    number: u32,
    message: &[u8],
    bits: u32,
    place: usize,
    image: &[u8],
    bytes: usize,
) {
    let call = |out: &mut [u8]| recover_bits(number, message, bits, place, image, out);
    let bits = bits.to_string();
    add_recover(cases, [message, image], number, &bits, place, bytes, call);
}

/// Each refusal of a whole message and of a lost block, with the one after it
/// if that can be had, but for messages that are too long.
fn add_refused(cases: &mut Cases) {
    add_digest(cases, 1, b"\xb7", 0, 10);
    add_digest(cases, 1, b"\xb7", 9, 10);
    add_digest(cases, 1, b"", 8, 10);
    add_digest(cases, 1, b"\xb7", 9, 9);
    add_digest(cases, 0, b"\xb7", 9, 36);
    add_digest(cases, 1, b"\xb7", 3, 9);
    add_end_state(cases, 0, b"\xb7", 9, 36);
    add_end_state(cases, 1, b"\xb7", 9, 12);
    add_end_state(cases, 1, b"\xb7", 3, 12);
    let image = lost::end_of(1, MESSAGE);
    add_lost(cases, 0, MESSAGE, 9, 5, &image, 3);
    add_lost(cases, 1, MESSAGE, 9, 5, &image, 3);
    add_lost(cases, 1, MESSAGE, 3, 5, &image[..12], 3);
    add_lost(cases, 1, MESSAGE, 3, 1, &image[..12], 2);
    add_lost(cases, 1, MESSAGE, 3, 1, &image, 2);
    add_lost(cases, 6, b"\x00", 3, 0, &lost::unreached(), 1);
    let image = lost::end_of(LESAMNTA_LW, MESSAGE);
    add_lost(cases, LESAMNTA_LW, MESSAGE, 3, 2, &image[..31], 15);
    add_lost(cases, LESAMNTA_LW, MESSAGE, 3, 0, &image[..31], 15);
}

fn add_update_bits(cases: &mut Cases, running: Running, piece: &[u8], bits: u32) -> Running {
    let (status, taken) = running.update_bits(piece, bits);
    let [before, after] = [running, taken].map(|r| words(&r));
    let piece = hexadecimal(piece);
    cases.add(
        format!("update {before} {piece} {bits}"),
        format!("{status} {after}"),
    );
    taken
}

/// Inside a byte no piece can follow, not even one of no bytes, but the
/// message can end.
fn add_stages(cases: &mut Cases) {
    let begun = add_start(cases, 1);
    let inside = add_update_bits(cases, begun, b"\xab\xcd", 3);
    add_update(cases, inside, b"\xff");
    add_update(cases, inside, b"");
    add_update_bits(cases, inside, b"\xff", 9);
    add_update_bits(cases, inside, b"\xff", 8);
    let closed = add_finish(cases, inside);
    add_update_bits(cases, closed, b"\xff", 9);
    add_read(cases, closed, false, 10);
}

/// At the limit: all eight bits of one byte pass, and not one bit more.
fn add_limit(cases: &mut Cases) {
    add_update_bits(cases, near(), b"\xff\xff", 1);
    let inside = add_update_bits(cases, near(), b"\xff", 7);
    add_update(cases, inside, b"\xff");
    add_finish(cases, inside);
    let full = add_update_bits(cases, near(), b"\xff", 8);
    add_update_bits(cases, full, b"\xff", 1);
}
