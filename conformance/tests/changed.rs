//! What changes within one block always shows in the end state of a sponge:
//! values of two bytes, and any bits of a block, whichever way each message is
//! cut. Nothing of the kind is promised of Lesamnta-LW.

use wickslate_conformance::compare::{finish, hash, hash_list, read, start, update};
use wickslate_conformance::make::{self, list, list_message, none, Entry};
use wickslate_conformance::random::Random;
use wickslate_conformance::settings::amount;
use wickslate_conformance::wickslate::Hasher;
use wickslate_reference::padding::{block, block_count};
use wickslate_reference::{sponges, Message, Padding, Variant};

/// The offsets at which a value of two bytes lies in one block, and after how
/// many bytes they come again.
const OFFSETS: [(&[usize], usize); 10] = [
    (&[0, 3], 5),
    (&[0], 2),
    (&[0, 1, 2, 5, 6, 7], 9),
    (&[0, 1, 2], 4),
    (&[0, 1, 2], 4),
    (&[], 1),
    (&[], 1),
    (&[0], 2),
    (&[0], 2),
    (&[0], 2),
];

/// The places of the blocks in which two messages of equal length differ.
fn changed_blocks(variant: &Variant, first: &[u8], second: &[u8]) -> Vec<usize> {
    let [first, second] = [first, second].map(|m| Message::whole(m).bits(variant.family));
    let of = |message, place| block(variant, Padding::NextBit, message, place);
    (0..block_count(variant, first.len()))
        .filter(|&place| of(&first, place) != of(&second, place))
        .collect()
}

/// The message with every bit of the value at an offset turned over.
fn turned(message: &[u8], offset: usize) -> Vec<u8> {
    let mut other = message.to_vec();
    other[offset] ^= 0xff;
    other[offset + 1] ^= 0xff;
    other
}

#[test]
fn offsets_of_values_that_lie_in_one_block() {
    let message = Random::of_test("offsets_of_values").bytes(91);
    for (variant, (offsets, period)) in sponges().zip(OFFSETS) {
        for offset in 0..message.len() - 1 {
            let changed = changed_blocks(variant, &message, &turned(&message, offset));
            let in_one = offsets.contains(&(offset % period));
            assert_eq!(changed.len() == 1, in_one, "{} {offset}", variant.name);
        }
    }
}

/// A message of some length and an offset at which a value lies in one block,
/// if the variant has any.
fn with_value(random: &mut Random, variant: &Variant) -> Option<(Vec<u8>, usize)> {
    let (offsets, period) = OFFSETS[variant.number as usize - 1];
    if offsets.is_empty() {
        return None;
    }
    let offset = random.pick(offsets) + period * random.below(9);
    let bytes = offset + 2 + random.below(20);
    Some((random.bytes(bytes), offset))
}

/// The message with a different value of two bytes at the offset.
fn with_other_value(random: &mut Random, message: &[u8], offset: usize) -> Vec<u8> {
    let difference = 1 + random.below(0xffff) as u16;
    let mut other = message.to_vec();
    for (byte, turned) in other[offset..].iter_mut().zip(difference.to_be_bytes()) {
        *byte ^= turned;
    }
    other
}

/// The image of the end state, read from a running hash that took the message
/// in random pieces. It has to be that of the whole message.
fn end_state(random: &mut Random, variant: &Variant, message: &[u8]) -> Vec<u8> {
    let bound = random.pick(&[2, 5, 40]);
    let (answer, mut h) = start(none(), variant.number);
    assert_eq!(answer, 0);
    for piece in random.cut(message, bound) {
        let (answer, taken) = update(h, piece);
        assert_eq!(answer, 0);
        h = taken;
    }
    let out = vec![0x5e; variant.image_bytes()];
    let given = read(finish(h).1, true, &out);
    assert_eq!(given, hash(variant.number, message, 1, &out));
    given.1
}

#[test]
fn a_different_value_in_one_block() {
    let mut random = Random::of_test("a_different_value_in_one_block");
    for _ in 0..amount(40, 2) {
        for variant in sponges() {
            let Some((message, offset)) = with_value(&mut random, variant) else {
                continue;
            };
            let other = with_other_value(&mut random, &message, offset);
            let [first, second] = [&message, &other].map(|m| end_state(&mut random, variant, m));
            assert_ne!(first, second, "{} {offset}", variant.name);
        }
    }
}

/// Any other bits of any one block, its last one among them.
#[test]
fn other_bits_of_one_block() {
    let mut random = Random::of_test("other_bits_of_one_block");
    for _ in 0..amount(40, 2) {
        for variant in sponges() {
            let bytes = 1 + random.below(40);
            let message = random.bytes(bytes);
            let other = with_other_block(&mut random, variant, &message);
            assert_eq!(changed_blocks(variant, &message, &other).len(), 1);
            let [first, second] = [&message, &other].map(|m| end_state(&mut random, variant, m));
            assert_ne!(first, second, "{}", variant.name);
        }
    }
}

/// The message with some bits of one block turned over.
fn with_other_block(random: &mut Random, variant: &Variant, message: &[u8]) -> Vec<u8> {
    let bits = 8 * message.len();
    let first = random.below(bits) / variant.block_bits * variant.block_bits;
    let end = (first + variant.block_bits).min(bits);
    let mut other = message.to_vec();
    while other == message {
        for bit in first..end {
            if random.once_in(3) {
                other[bit / 8] ^= 0x80 >> (bit % 8);
            }
        }
    }
    other
}

/// States are equal up to the block that differs, and differ from it on.
#[test]
fn states_part_with_the_block_that_differs() {
    let mut random = Random::of_test("states_part_with_the_block");
    for variant in sponges() {
        let message = random.bytes(30);
        let other = with_other_block(&mut random, variant, &message);
        let place = changed_blocks(variant, &message, &other)[0];
        let mut both = [start(none(), variant.number).1; 2];
        for (taken, bytes) in (1..).zip(message.iter().zip(&other)) {
            both[0] = update(both[0], &[*bytes.0]).1;
            both[1] = update(both[1], &[*bytes.1]).1;
            let after = 8 * taken / variant.block_bits > place;
            let [first, second] = both.map(|h: Hasher| h.state);
            assert_eq!(first != second, after, "{} {taken}", variant.name);
        }
        assert_ne!(finish(both[0]).1.state, finish(both[1]).1.state);
    }
}

/// Where the bytes of a list's segments lie in its buffer.
fn places(entries: &[Entry]) -> Vec<usize> {
    let bytes = |&(offset, length): &Entry| offset as usize..(offset + length) as usize;
    entries.iter().flat_map(bytes).collect()
}

/// The buffer with these bytes at these places.
fn with_bytes(buffer: &[u8], places: &[usize], bytes: &[u8]) -> Vec<u8> {
    let mut other = buffer.to_vec();
    for (&place, &byte) in places.iter().zip(bytes) {
        other[place] = byte;
    }
    other
}

/// Two buffers under one list, whose messages differ in a value that lies in
/// one block. What no entry names makes no difference.
#[test]
fn a_different_value_under_the_same_list() {
    let mut random = Random::of_test("a_different_value_under_the_same_list");
    for _ in 0..amount(40, 2) {
        for variant in sponges() {
            let entries = make::entries(&mut random, 30, 100);
            let (list, places) = (list(&entries), places(&entries));
            let front = 2 + list.len();
            let (offsets, period) = OFFSETS[variant.number as usize - 1];
            let in_one = |&offset: &usize| offsets.contains(&(offset % period));
            let last = front + places.len() - 1;
            let values: Vec<usize> = (front..last).filter(in_one).collect();
            if values.is_empty() {
                continue;
            }
            let offset = random.pick(&values);
            let buffer = random.bytes(100);
            let message = list_message(&entries, &buffer);
            let changed = with_other_value(&mut random, &message, offset);
            let beside = with_bytes(&random.bytes(100), &places, &message[front..]);
            let other = with_bytes(&beside, &places, &changed[front..]);

            let out = [0x5e; 36];
            let end = |buffer: &[u8]| hash_list(variant.number, &list, buffer, 1, &out);
            let given = end(&buffer);
            assert_eq!(given, hash(variant.number, &message, 1, &out));
            assert_eq!(given, end(&beside), "what no entry names");
            assert_ne!(given, end(&other), "{} {offset}", variant.name);
            assert_eq!(given.0, 0);
        }
    }
}

/// Two lists that name the same bytes, and of which an empty segment lies
/// elsewhere: one byte of the message, which lies in one block or in two.
#[test]
fn an_empty_segment_elsewhere() {
    let buffer = Random::of_test("an_empty_segment_elsewhere").bytes(90);
    let mut in_one_block = 0;
    for variant in sponges() {
        for empty in 0..6 {
            let [first, second] = [1, 2].map(|gap| {
                let mut entries: Vec<Entry> = (0..6).map(|k| (15 * k, 10)).collect();
                entries.insert(empty + 1, (15 * empty as u32 + 10 + gap, 0));
                entries
            });
            let [one, two] = [&first, &second].map(|entries| list_message(entries, &buffer));
            if changed_blocks(variant, &one, &two).len() == 1 {
                let end = |entries: &[Entry]| {
                    hash_list(variant.number, &list(entries), &buffer, 1, &[0x5e; 36])
                };
                assert_ne!(end(&first), end(&second), "{} {empty}", variant.name);
                in_one_block += 1;
            }
        }
    }
    assert!(in_one_block >= 48, "all those of eight variants");
}

/// The border between two touching segments stands elsewhere, and all else is
/// as it was. More than one block is different then: that the messages differ is
/// proved, and that the end states do is seen here.
#[test]
fn a_border_that_is_moved() {
    let mut random = Random::of_test("a_border_that_is_moved");
    for _ in 0..amount(40, 4) {
        let buffer = random.bytes(1000);
        let (begin, end) = (random.below(20), 700 + random.below(20));
        let apart = random.pick(&[1, 2, 255, 256, 257, 512]);
        let border = begin + random.below(100);
        for variant in sponges() {
            let [first, second] = [border, border + apart].map(|border| {
                let [begin, border, end] = [begin, border, end].map(|place| place as u32);
                [(begin, border - begin), (border, end - border), (900, 5)]
            });
            let [one, two] = [first, second].map(|entries| list_message(&entries, &buffer));
            assert_eq!(one[2 + 24..], two[2 + 24..], "the joined segments");
            assert!(changed_blocks(variant, &one, &two).len() > 1);
            let end = |entries: &[Entry]| {
                hash_list(variant.number, &list(entries), &buffer, 1, &[0x5e; 36])
            };
            assert_ne!(end(&first), end(&second), "{}", variant.name);
        }
    }
}
