//! Reports: a stream of tables against a manifest, and manifests that are
//! refused.

use super::{hexadecimal, Cases, LESAMNTA_LW};
use crate::digest;
use crate::manifest::{check, report, Counts, RECORD_BYTES};

const CONTENTS: &[u8] = b"Bar 7 hold.";

pub fn add(cases: &mut Cases) {
    let list = [record(7, 1), record(258, 6)].concat();
    cases.heading("manifests: a sound one, a byte too few, a record that begins a byte too late");
    let cut = &list[..69];
    for list in [&list, cut, &list[1..36]] {
        add_check(cases, list);
    }
    cases.heading("a digest of Lesamnta-LW leaves no byte after it");
    add_check(cases, &record(7, LESAMNTA_LW as u8));
    let row = row();
    let part = |from: usize, to: usize| &row[RECORD_BYTES * from..RECORD_BYTES * to];
    cases.heading("falling; an axis twice, also in a wrong record; a wrong record after one that does not rise, and before");
    for (from, to) in [(1, 3), (2, 4), (3, 5), (1, 5), (4, 7)] {
        add_check(cases, part(from, to));
    }
    // The right one; one of no axis; an empty one; one that lacks a byte.
    let mut stream = [
        table(7, CONTENTS),
        table(9, b"\xff"),
        table(7, b""),
        table(258, CONTENTS),
    ]
    .concat();
    stream.pop();
    cases.heading("reports over a stream cut in two, in a header and within a table; each piece after its manifest");
    for (list, place) in [(&list[..], 3), (&list, 10), (cut, 10), (part(1, 3), 10)] {
        add_report(cases, list, stream.split_at(place));
    }
    cases.heading("after the first table a manifest that does not rise, and one cut short");
    let (first, second) = stream.split_at(table(7, CONTENTS).len());
    for other in [part(1, 3), cut] {
        add_strayed(cases, [&list, other], [first, second]);
    }
}

/// Records of which some rise and others do not; the fifth is of no variant.
fn row() -> Vec<u8> {
    let [low, high] = [record(7, 1), record(258, 6)];
    let mut wrong = low.clone();
    wrong[2] = 12;
    [&low[..], &high, &low, &low, &wrong, &high, &low].concat()
}

/// A record for the axis's table.
fn record(axis: u16, number: u8) -> Vec<u8> {
    let digest = digest(number.into(), CONTENTS).expect("the variant exists");
    let mut record = [&axis.to_be_bytes()[..], &[number], &digest].concat();
    record.resize(35, 0);
    record
}

fn table(axis: u16, contents: &[u8]) -> Vec<u8> {
    let length = contents.len() as u32;
    [&axis.to_be_bytes()[..], &length.to_be_bytes(), contents].concat()
}

fn status<T>(answer: &Result<T, u8>) -> u8 {
    answer.as_ref().err().copied().unwrap_or(0)
}

fn add_check(cases: &mut Cases, list: &[u8]) {
    let status = status(&check(list));
    let list = hexadecimal(list);
    cases.add(format!("check-manifest - {list}"), status.to_string());
}

/// The counts over a stream in two pieces, all 0 if the manifest is refused.
fn add_report(cases: &mut Cases, list: &[u8], (first, second): (&[u8], &[u8])) {
    let answer = report(list, [first, second].concat().as_slice()).expect("a slice");
    add_counts(cases, [list, first, list, second], answer);
}

/// The second piece comes with a manifest in which no axis can be looked up, and
/// nothing of it counts.
fn add_strayed(cases: &mut Cases, [list, other]: [&[u8]; 2], [first, second]: [&[u8]; 2]) {
    let answer = report(list, first).expect("a slice");
    add_counts(cases, [list, first, other, second], answer);
}

fn add_counts(cases: &mut Cases, given: [&[u8]; 4], answer: Result<Counts, u8>) {
    let given = given.map(hexadecimal).join(" ");
    let status = status(&answer);
    let counts = counted(answer.unwrap_or_default());
    cases.add(format!("report - {given}"), format!("{status} {counts}"));
}

/// The counts in the order of the program's lines.
fn counted(counts: Counts) -> String {
    let Counts {
        listed,
        tables,
        equal,
        unequal,
        untold,
        unlisted,
    } = counts;
    format!("{listed} {tables} {equal} {unequal} {untold} {unlisted}")
}
