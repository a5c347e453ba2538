//! The message over a segment list: what it is made of, and what it tells
//! apart.

use wickslate_reference::segments::{hash_list, message};
use wickslate_reference::{digest, message_check, Message, MESSAGE_LIMIT, VARIANTS};

const SIX: &[u8] = &[0, 1, 2, 3, 4, 5];

fn list(entries: &[(u32, u32)]) -> Vec<u8> {
    let pair = |&(offset, length): &(u32, u32)| [offset.to_be_bytes(), length.to_be_bytes()];
    entries.iter().flat_map(pair).flatten().collect()
}

/// Document 02: (0, 2), (3, 2) give 22 bytes, 2 of count, 16 of list, 4 of
/// segments.
#[test]
fn twenty_two_bytes() {
    let count = [0, 2];
    let list = [0, 0, 0, 0, 0, 0, 0, 2, 0, 0, 0, 3, 0, 0, 0, 2];
    let expected = [&count[..], &list, &[0, 1, 3, 4]].concat();
    assert_eq!(expected.len(), 22);
    assert_eq!(message(&list, SIX), Ok(expected));
}

#[test]
fn the_count_has_two_bytes_the_high_one_first() {
    for (entries, count) in [
        (0, [0, 0]),
        (1, [0, 1]),
        (255, [0, 255]),
        (256, [1, 0]),
        (512, [2, 0]),
    ] {
        let message = message(&vec![0; 8 * entries], &[]).expect("empty segments");
        assert_eq!(message[..2], count);
        assert_eq!(message.len(), 2 + 8 * entries);
    }
}

#[test]
fn a_moved_border_shows() {
    let [first, second] = [[(0, 2), (2, 2)], [(0, 3), (3, 1)]].map(|entries| list(&entries));
    let [first, second] = [first, second].map(|list| message(&list, SIX).expect("a sound list"));
    assert_ne!(first, second);
    assert_eq!(
        first[18..],
        second[18..],
        "the joined segments are the same"
    );
}

#[test]
fn the_result_is_that_of_the_message() {
    let list = list(&[(1, 1), (2, 4)]);
    let message = message(&list, SIX).expect("a sound list");
    for variant in &VARIANTS {
        let number = variant.number;
        let mut out = vec![0; variant.digest_bytes()];
        assert_eq!(hash_list(number, &list, SIX, false, &mut out), Ok(()));
        assert_eq!(digest(number, &message), Ok(out), "{}", variant.name);
    }
}

/// The limit counts the two bytes and the list.
#[test]
fn the_added_bytes_count() {
    let buffer = vec![0x31; MESSAGE_LIMIT];
    let longest = list(&[(0, MESSAGE_LIMIT as u32 - 10)]);
    let message = message(&longest, &buffer).expect("a sound list");
    assert_eq!(message.len(), MESSAGE_LIMIT);
    assert!(message_check(1, Message::whole(&message)).is_ok());
    let longer = list(&[(0, MESSAGE_LIMIT as u32 - 9)]);
    assert_eq!(
        hash_list(1, &longer, &buffer, false, &mut []),
        Err((4, None))
    );
}
