//! Segment lists: sound and damaged ones, and the refusals 1, 9, 7, 10, 11, 4
//! and 5 alone and against their neighbours.

use wickslate_conformance::compare::{advance, at, check_entry, entry, hash};
use wickslate_conformance::make::{self, list, list_message, result_bytes, variant, UNKNOWN};
use wickslate_conformance::random::Random;
use wickslate_conformance::settings::amount;
use wickslate_conformance::wickslate::{Answer, Cursor};
use wickslate_conformance::{compare, wickslate};
use wickslate_reference::{MESSAGE_LIMIT, VARIANTS};

const SIX: &[u8] = b"bridge";
const MAX_ENTRIES: u32 = 512;
const OUT: [u8; 36] = [0x5e; 36];

/// The answer over a list.
fn hash_list(variant: u32, list: &[u8], buffer: &[u8], wanted: u32, out: &[u8]) -> u32 {
    compare::hash_list(variant, list, buffer, wanted, out).0
}

/// Compares every entry, the one after the last, and the whole list.
fn expect_same(random: &mut Random, list: &[u8], buffer: &[u8]) -> u32 {
    for k in 0..=list.len() / 8 {
        check_entry(list, buffer, k);
        assert_eq!(advance(list, k), entry(list, k));
    }
    let variant = variant(random);
    let wanted = random.pick(&[0, 1]);
    hash_list(variant.number, list, buffer, wanted, &OUT)
}

#[test]
fn sound_lists() {
    let mut random = Random::of_test("sound_lists");
    for _ in 0..amount(250, 10) {
        let bytes = random.below(200);
        let buffer = random.bytes(bytes);
        let entries = make::entries(&mut random, 20, bytes);
        let answer = expect_same(&mut random, &list(&entries), &buffer);
        assert_eq!(answer, 0);
    }
}

/// One cursor goes over the whole list, gives entry by entry, and then stays.
#[test]
fn a_cursor_goes_over_the_list() {
    let mut random = Random::of_test("a_cursor_goes_over_the_list");
    for count in [0, 1, 2, 511, 512] {
        let list = random.bytes(8 * count);
        let mut cursor = Cursor::at(&list, 0);
        let (mut offset, mut length) = (0, 0);
        for k in 0..count {
            assert!(wickslate::advance(&mut cursor, &mut offset, &mut length).is_done());
            assert_eq!(cursor, Cursor::at(&list, k + 1));
            assert_eq!((0, offset, length), entry(&list, k));
        }
        let last = (offset, length);
        for _ in 0..3 {
            let answer = wickslate::advance(&mut cursor, &mut offset, &mut length);
            assert_eq!(answer, Answer(7));
            assert_eq!(cursor, Cursor::at(&list, count));
            assert_eq!((offset, length), last);
        }
    }
}

/// The result over a list is that of its message.
#[test]
fn count_list_and_segments() {
    let mut random = Random::of_test("count_list_and_segments");
    for variant in &VARIANTS {
        let buffer = random.bytes(120);
        let entries = make::entries(&mut random, 30, buffer.len());
        let message = list_message(&entries, &buffer);
        for wanted in [0, 1, 77, 256, u32::MAX] {
            let given = compare::hash_list(variant.number, &list(&entries), &buffer, wanted, &OUT);
            assert_eq!(given, hash(variant.number, &message, wanted, &OUT));
        }
    }
}

/// The count has two bytes, the high one first, and the list is the message
/// if no entry names a byte.
#[test]
fn counts_of_two_bytes() {
    for (count, bytes) in [
        (0, [0, 0]),
        (1, [0, 1]),
        (255, [0, 255]),
        (256, [1, 0]),
        (257, [1, 1]),
        (512, [2, 0]),
    ] {
        let list = list(&vec![(6, 0); count]);
        let message = [&bytes[..], &list].concat();
        for variant in &VARIANTS {
            let given = compare::hash_list(variant.number, &list, SIX, 1, &OUT);
            assert_eq!(given, hash(variant.number, &message, 1, &OUT));
        }
    }
}

/// The known value of document 02: 22 bytes, 2 of count, 16 of list, 4 of
/// segments.
#[test]
fn twenty_two_bytes() {
    let entries = [(0, 2), (3, 2)];
    let message = b"\0\x02\0\0\0\0\0\0\0\x02\0\0\0\x03\0\0\0\x02brdg";
    assert_eq!(message.len(), 22);
    assert_eq!(list_message(&entries, SIX), message);
    for variant in &VARIANTS {
        for wanted in [0, 1] {
            let given = compare::hash_list(variant.number, &list(&entries), SIX, wanted, &OUT);
            assert_eq!(given, hash(variant.number, message, wanted, &OUT));
        }
    }
}

/// A sound list with one number changed, a byte lost, or any bytes instead.
#[test]
fn damaged_lists() {
    let mut random = Random::of_test("damaged_lists");
    let mut seen = [0; 12];
    for _ in 0..amount(1500, 600) {
        let bytes = 1 + random.below(60);
        let buffer = random.bytes(bytes);
        let mut damaged = list(&make::entries(&mut random, 8, bytes));
        damage(&mut random, &mut damaged);
        let answer = Answer(expect_same(&mut random, &damaged, &buffer));
        seen[usize::from(answer.number())] += 1;
    }
    for refusal in [0, 9, 10, 11] {
        assert!(seen[refusal] > 0, "refusal {refusal} did not come up");
    }
}

fn damage(random: &mut Random, list: &mut Vec<u8>) {
    match random.below(8) {
        0 => list.truncate(list.len().saturating_sub(1 + random.below(8))),
        1 => *list = random.bytes(list.len()),
        2 => list.extend(random.bytes(1)),
        _ if list.is_empty() => {}
        3 => {
            let byte = random.below(list.len());
            list[byte] = random.array::<1>()[0];
        }
        _ => {
            // The low byte of an offset or a length, by a little.
            let low = 4 * random.below(list.len() / 4) + 3;
            list[low] = list[low].wrapping_add(random.pick(&[1, 2, 255, 254]));
        }
    }
}

#[test]
fn known_lists() {
    let max = u32::MAX;
    let calls: [(&[make::Entry], u32); 18] = [
        (&[(0, 2), (3, 2)], 0),
        (&[(0, 2), (1, 2)], at(10, 1)),
        (&[(5, 2)], at(11, 0)),
        (&[(6, 0)], 0),
        // At the end of the buffer, and of the entry before.
        (&[(0, 6)], 0),
        (&[(0, 7)], at(11, 0)),
        (&[(7, 0)], at(11, 0)),
        (&[(0, 3), (3, 3)], 0),
        (&[(0, 6), (6, 1)], at(11, 1)),
        // Empty entries that touch, and one inside a different one.
        (&[(2, 0), (2, 0)], 0),
        (&[(2, 1), (2, 0)], at(10, 1)),
        // An entry past the end before one out of order, and one that is both.
        (&[(4, 3), (0, 1)], at(11, 0)),
        (&[(0, 2), (1, 6)], at(10, 1)),
        // The high byte comes first.
        (&[(0, 1 << 24), (0, 0)], at(11, 0)),
        (&[(1 << 16, 0), (1 << 8, 0)], at(11, 0)),
        (&[(max, 1)], at(11, 0)),
        (&[(1, max)], at(11, 0)),
        (&[(max, max)], at(11, 0)),
    ];
    for (entries, answer) in calls {
        let list = list(entries);
        for (k, _) in entries.iter().enumerate() {
            entry(&list, k);
            check_entry(&list, SIX, k);
        }
        for variant in &VARIANTS {
            for wanted in [0, 1] {
                let given = hash_list(variant.number, &list, SIX, wanted, &OUT);
                assert_eq!(given, answer, "{entries:?}");
            }
        }
    }
}

#[test]
fn lists_that_are_none() {
    let row: Vec<make::Entry> = (0..=MAX_ENTRIES).map(|k| (k, 1)).collect();
    let long = list(&row);
    let buffer = vec![0x31; row.len()];
    for bytes in (0..=4104).filter(|bytes| bytes % 8 != 0).chain([4104]) {
        let broken = &long[..bytes];
        assert_eq!(entry(broken, 0).0, 9);
        assert_eq!(entry(broken, usize::MAX).0, 9, "and past the end");
        assert_eq!(advance(broken, 0).0, 9);
        assert_eq!(advance(broken, usize::MAX).0, 9, "and past the end");
        assert_eq!(check_entry(broken, &buffer, 0), 9);
        assert_eq!(check_entry(broken, &buffer, 513), 9, "and past the end");
        assert_eq!(hash_list(4, broken, &buffer, 0, &OUT), 9);
    }
    for count in [0, 1, 511, 512] {
        let longest = &long[..8 * count];
        for k in [0, 510, 511] {
            let inside = k < count;
            assert_eq!(entry(longest, k).0, if inside { 0 } else { 7 });
            assert_eq!(advance(longest, k).0, if inside { 0 } else { 7 });
            assert_eq!(check_entry(longest, &buffer, k), if inside { 0 } else { 7 });
        }
        assert_eq!(hash_list(4, longest, &buffer, 0, &OUT), 0);
        assert_eq!(hash_list(10, longest, &buffer, 1, &OUT), 0);
    }
}

#[test]
fn entries_past_the_end() {
    // All entries are misordered and past the buffer too.
    let wrong = list(&[(9, 9), (8, 9), (7, 9)]);
    for (bytes, count) in [(0, 0), (8, 1), (16, 2), (24, 3)] {
        for k in [count, count + 1, 1 << 29, 1 << 32, 1 << 61, usize::MAX] {
            assert_eq!(entry(&wrong[..bytes], k).0, 7);
            assert_eq!(advance(&wrong[..bytes], k).0, 7);
            assert_eq!(check_entry(&wrong[..bytes], SIX, k), 7);
        }
    }
}

#[test]
fn misordered_comes_before_past_the_end() {
    let both = list(&[(0, 3), (2, 90), (1, 1)]);
    assert_eq!(check_entry(&both, SIX, 1), at(10, 1));
    assert_eq!(check_entry(&both, SIX, 2), at(10, 2));
    assert_eq!(hash_list(1, &both, SIX, 0, &OUT), at(10, 1));
    // An earlier entry past the end comes before a later one out of order.
    let earlier = list(&[(0, 3), (3, 90), (1, 1)]);
    assert_eq!(check_entry(&earlier, SIX, 1), at(11, 1));
    assert_eq!(check_entry(&earlier, SIX, 2), at(10, 2));
    assert_eq!(hash_list(1, &earlier, SIX, 0, &OUT), at(11, 1));
}

/// Ends that do not fit in four bytes are not cut to four.
#[test]
fn sums_past_four_bytes() {
    let max = u32::MAX;
    for entries in [
        [(max, 1), (0, 1)],
        [(max, 2), (1, 1)],
        [(max, max), (max, 0)],
        [(1, max), (0, 0)],
    ] {
        let list = list(&entries);
        assert_eq!(check_entry(&list, SIX, 0), at(11, 0));
        assert_eq!(check_entry(&list, SIX, 1), at(10, 1));
        assert_eq!(hash_list(2, &list, SIX, 0, &OUT), at(11, 0));
    }
}

#[test]
fn unknown_variants_come_first() {
    let sound = list(&[(0, 2), (3, 2)]);
    let misordered = list(&[(0, 2), (1, 2)]);
    let past = list(&[(0, 7)]);
    for number in UNKNOWN {
        for list in [&sound, &sound[..9].to_vec(), &misordered, &past] {
            for out in [&OUT[..], &[]] {
                assert_eq!(hash_list(number, list, SIX, 0, out), 1);
            }
        }
    }
}

/// A broken list whose entries are wrong too.
#[test]
fn a_list_that_is_none_comes_before_its_entries() {
    let wrong = list(&[(5, 9), (0, 1), (0, 1)]);
    for out in [&OUT[..], &[]] {
        assert_eq!(hash_list(1, &wrong[..17], SIX, 0, out), 9);
    }
}

/// Lists whose message has this number of bytes, with the count and the list
/// included: of one entry, of two with a gap between them, and of 512 that touch.
fn lists_for(message_bytes: usize) -> [Vec<u8>; 3] {
    let left = |entries: u32| message_bytes as u32 - 2 - 8 * entries;
    let half = left(2) / 2;
    let step = left(MAX_ENTRIES) / MAX_ENTRIES;
    let mut many: Vec<make::Entry> = (0..MAX_ENTRIES).map(|k| (k * step, step)).collect();
    many[511].1 += left(MAX_ENTRIES) % MAX_ENTRIES;
    [
        list(&[(0, left(1))]),
        list(&[(0, half), (half + 1, left(2) - half)]),
        list(&many),
    ]
}

/// A message of one byte more than the limit, with the count and the list
/// included.
#[test]
fn too_long_comes_after_the_entries_and_before_the_output() {
    let buffer = vec![0x31; MESSAGE_LIMIT + 1];
    let end = buffer.len() as u32;
    let beyond = list(&[(0, end), (end, 1)]);
    let misordered = list(&[(0, end), (end - 1, 1)]);
    for variant in &VARIANTS {
        for out in [&OUT[..], &[]] {
            let answer = |list: &[u8]| hash_list(variant.number, list, &buffer, 1, out);
            for list in lists_for(MESSAGE_LIMIT + 1) {
                assert_eq!(answer(&list), 4);
            }
            assert_eq!(answer(&beyond), at(11, 1), "and too long");
            assert_eq!(answer(&misordered), at(10, 1), "and too long");
        }
    }
}

/// A message of exactly the limit. As for whole messages: what is refused is the
/// output.
#[test]
fn the_longest_message_is_not_too_long() {
    let buffer = vec![0x31; MESSAGE_LIMIT + 1];
    for variant in &VARIANTS {
        for list in lists_for(MESSAGE_LIMIT) {
            let answer = wickslate::hash_list(variant.number, &list, &buffer, 0, &mut [0; 9]);
            assert_eq!(answer.0, 5, "{}", variant.name);
        }
    }
}

/// And one is hashed to its end, as the same message whole. Under valgrind it
/// would take a minute, and is left out.
#[test]
fn a_message_of_exactly_the_limit() {
    let buffer = vec![0x31; MESSAGE_LIMIT];
    let bytes = MESSAGE_LIMIT as u32 - 2 - 8;
    let message = list_message(&[(0, bytes)], &buffer);
    assert_eq!(message.len(), MESSAGE_LIMIT);
    let list = list(&[(0, bytes)]);
    for _ in 0..amount(1, 0) {
        let [mut given, mut expected] = [[0; 32]; 2];
        assert!(wickslate::hash_list(5, &list, &buffer, 0, &mut given).is_done());
        assert!(wickslate::hash(5, &message, 0, &mut expected).is_done());
        assert_eq!(given, expected);
    }
}

#[test]
fn outputs_one_byte_too_short() {
    let sound = list(&[(0, 2), (3, 2)]);
    for variant in &VARIANTS {
        for wanted in [0, 1] {
            let fits = result_bytes(variant, wanted);
            for bytes in [0, fits - 1, fits, fits + 1] {
                let answer = hash_list(variant.number, &sound, SIX, wanted, &vec![0x5e; bytes]);
                assert_eq!(answer, if bytes < fits { 5 } else { 0 });
            }
        }
    }
}
