//! The running hash: Annex B in pieces; of PHOTON-100 the wrong stages, the
//! longest message, and one that is not well formed; and of Lesamnta-LW, which
//! holds the longest blocks.

use super::{annex_b_message, hexadecimal, lent, name, size, Cases, LESAMNTA_LW};
use crate::running::{start, Running};
use crate::variants::{Variant, VARIANTS};
use crate::BIT_LIMIT;

pub fn add(cases: &mut Cases) {
    cases.heading(
        "Annex B in three pieces: a running hash is its variant, stage, total, state and held bits",
    );
    for variant in &VARIANTS {
        let message = annex_b_message(variant);
        let (first, rest) = message.split_at(1);
        let (second, third) = rest.split_at(rest.len() / 2);
        let mut running = add_start(cases, variant.number);
        for piece in [first, second, third] {
            running = add_update(cases, running, piece);
        }
        add_end(cases, variant, running);
    }
    cases.heading("an open one is not read, and a closed one takes nothing more");
    add_stages(cases);
    cases.heading("one byte before the longest message, and at it");
    add_limit(cases);
    cases.heading("not well formed: what a refused start yields");
    let none = add_start(cases, 0);
    add_update(cases, none, b"\xff");
    add_finish(cases, none);
    add_read(cases, none, false, 36);
    add_read(cases, none, true, 36);
    cases.heading("Lesamnta-LW, whose blocks are the longest");
    add_longest_blocks(cases);
}

/// A running hash in five words.
pub fn words(running: &Running) -> String {
    let Running {
        variant,
        stage,
        total,
        state,
        held,
    } = running;
    let [state, held] = [&state[..], &held[..]].map(hexadecimal);
    format!("{variant} {stage} {total} {state} {held}")
}

pub fn add_start(cases: &mut Cases, number: u32) -> Running {
    let (status, begun) = start(number);
    let after = words(&begun);
    cases.add(format!("start {number}"), format!("{status} {after}"));
    begun
}

pub fn add_update(cases: &mut Cases, running: Running, piece: &[u8]) -> Running {
    let (status, taken) = running.update(piece);
    let [before, after] = [running, taken].map(|r| words(&r));
    let piece = hexadecimal(piece);
    cases.add(
        format!("update {before} {piece} -"),
        format!("{status} {after}"),
    );
    taken
}

pub fn add_finish(cases: &mut Cases, running: Running) -> Running {
    let (status, closed) = running.finish();
    let [before, after] = [running, closed].map(|r| words(&r));
    cases.add(format!("finish {before}"), format!("{status} {after}"));
    closed
}

/// Closes a running hash and reads its digest.
pub fn add_end(cases: &mut Cases, variant: &Variant, running: Running) {
    let closed = add_finish(cases, running);
    add_read(cases, closed, false, size(variant, false));
}

/// A read into an output of so many bytes.
pub fn add_read(cases: &mut Cases, running: Running, image: bool, bytes: usize) {
    let before = lent(bytes);
    let mut out = before.clone();
    let status = running.read(image, &mut out);
    let name = name(image);
    let running = words(&running);
    let [before, out] = [&before, &out].map(|bytes| hexadecimal(bytes));
    cases.add(
        format!("read-{name} {running} {before}"),
        format!("{status} {out}"),
    );
}

/// An open one cannot be read; a closed one takes nothing more.
fn add_stages(cases: &mut Cases) {
    let open = add_start(cases, 1);
    add_read(cases, open, false, 36);
    add_read(cases, open, true, 36);
    let closed = add_finish(cases, open);
    add_update(cases, closed, b"\xff");
    add_finish(cases, closed);
}

/// One that lacks a byte of the longest message.
pub fn near() -> Running {
    let mut near = start(1).1;
    near.total = BIT_LIMIT as u32 - 8;
    near.state[..13].fill(0xa0);
    near.held[..2].copy_from_slice(&[0xa5, 0xa0]);
    near
}

/// At the limit: one byte passes, no byte more does, and the longest message
/// is closed and read, also into outputs a byte too short.
fn add_limit(cases: &mut Cases) {
    add_update(cases, near(), b"\xff\xff");
    let full = add_update(cases, near(), b"\xff");
    add_update(cases, full, b"\xff");
    let closed = add_finish(cases, full);
    for (image, bytes) in [(false, 10), (true, 13), (false, 9), (true, 12)] {
        add_read(cases, closed, image, bytes);
    }
}

/// Lesamnta-LW holds 15 bytes, then a block is full and a byte behind it, and
/// two blocks close the message. After 16 bytes one closes it.
fn add_longest_blocks(cases: &mut Cases) {
    let message = b"Bar 14, 6.20 m, 0";
    let begun = add_start(cases, LESAMNTA_LW);
    let held = add_update(cases, begun, &message[..15]);
    let open = add_update(cases, held, &message[15..]);
    let closed = add_finish(cases, open);
    add_read(cases, closed, false, 32);
    add_read(cases, closed, true, 32);
    let full = add_update(cases, held, &message[15..16]);
    add_finish(cases, full);
}
