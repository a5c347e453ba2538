//! Segment lists: the known values, a border that is moved, and a call for
//! each other way to be refused.

use super::whole::add_whole;
use super::{hexadecimal, lent, name, status, Cases};
use crate::segments::{hash_list, segment};

/// The buffer of every list.
const SIX: &[u8] = &[0x10, 0x11, 0x12, 0x13, 0x14, 0x15];

type Entry = (u32, u32);

pub fn add(cases: &mut Cases) {
    cases.heading("segment lists over six bytes: the known values, and a list as its message");
    add_both(cases, [(0, 2), (3, 2)]);
    add_both(cases, [(0, 2), (1, 2)]);
    add_only(cases, (5, 2));
    add_only(cases, (6, 0));
    // The number of entries, the list, the segments.
    let counted = [0, 2, 0, 0, 0, 0, 0, 0, 0, 2, 0, 0, 0, 3, 0, 0, 0, 2];
    add_message(cases, &[&counted[..], &[0x10, 0x11, 0x13, 0x14]].concat());
    cases.heading("touching segments, their border in two places; no entry, also as its message");
    add_both(cases, [(0, 2), (2, 2)]);
    add_both(cases, [(0, 3), (3, 1)]);
    add_digest(cases, false, 1, &[], 10);
    add_digest(cases, true, 6, &[], 11);
    add_message(cases, &[0, 0]);
    cases.heading("refused: not whole entries, no variant, an output a byte too short");
    let list = bytes_of(&[(0, 2), (3, 2)]);
    add_segment(cases, &list[..9], 0);
    for (number, bytes, out) in [(1, 15, 36), (0, 16, 36), (1, 16, 9)] {
        add_digest(cases, false, number, &list[..bytes], out);
    }
}

fn bytes_of(entries: &[Entry]) -> Vec<u8> {
    let pair = |&(offset, length): &Entry| [offset.to_be_bytes(), length.to_be_bytes()].concat();
    entries.iter().flat_map(pair).collect()
}

fn add_segment(cases: &mut Cases, list: &[u8], k: usize) {
    let answer = segment(list, SIX, k);
    let status = status(&answer);
    let [list, buffer, found] = [list, SIX, answer.unwrap_or(&[])].map(hexadecimal);
    cases.add(
        format!("segment - {list} {buffer} {k}"),
        format!("{status} {found}"),
    );
}

/// The result over a list, into an output of so many bytes.
fn add_digest(cases: &mut Cases, image: bool, number: u32, list: &[u8], bytes: usize) {
    let before = lent(bytes);
    let mut out = before.clone();
    let status = status(&hash_list(number, list, SIX, image, &mut out));
    let name = name(image);
    let [list, buffer, before, out] = [list, SIX, &before, &out].map(hexadecimal);
    cases.add(
        format!("list-{name} {number} {list} {buffer} {before}"),
        format!("{status} {out}"),
    );
}

/// The same results as for a list whose message this is.
fn add_message(cases: &mut Cases, message: &[u8]) {
    add_whole(cases, false, 1, message, 10);
    add_whole(cases, true, 6, message, 11);
}

/// Both entries of a list of two, and the results over it.
fn add_both(cases: &mut Cases, entries: [Entry; 2]) {
    let list = bytes_of(&entries);
    for k in 0..2 {
        add_segment(cases, &list, k);
    }
    add_digest(cases, false, 1, &list, 10);
    add_digest(cases, true, 6, &list, 11);
}

/// The one entry of a list, the one after it, and the results over it.
fn add_only(cases: &mut Cases, entry: Entry) {
    let list = bytes_of(&[entry]);
    for k in 0..2 {
        add_segment(cases, &list, k);
    }
    add_digest(cases, false, 3, &list, 20);
    add_digest(cases, true, 8, &list, 22);
}
