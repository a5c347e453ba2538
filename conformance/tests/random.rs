//! Random calls of every kind, sound and damaged, on both sides. They go on
//! for `WICKSLATE_MINUTES` if that is set, and the longest messages come first
//! then.

use std::time::Instant;

use wickslate_conformance::make::{self, Entry};
use wickslate_conformance::random::Random;
use wickslate_conformance::wickslate::{self, Answer, Hasher};
use wickslate_conformance::{compare, settings};
use wickslate_reference::manifest::RECORD_BYTES;
use wickslate_reference::padding::block_count;
use wickslate_reference::running::HELD_BYTES;
use wickslate_reference::{digest, digest_bits, Variant, MESSAGE_LIMIT};

/// The sponge that takes the least time for a byte.
const FAST: u32 = 5;

/// A random call: its answer.
type Call = fn(&mut Random) -> u32;

/// The running hash has five calls, and comes twice.
const CALLS: [Call; 11] = [
    hash,
    hash_bits,
    image,
    cipher,
    running,
    running,
    one_entry,
    whole_list,
    lost_block,
    lost_block_bits,
    records,
];

#[test]
fn random_calls() {
    let mut random = Random::of_test("random_calls");
    let mut seen = [0; 18];
    match settings::minutes() {
        None => {
            for _ in 0..settings::amount(30_000, 6000) {
                seen[any_call(&mut random)] += 1;
            }
        }
        Some(time) => {
            longest_messages(&mut random);
            let begun = Instant::now();
            while begun.elapsed() < time {
                seen[any_call(&mut random)] += 1;
            }
        }
    }
    println!("answers 0 to 17: {seen:?}");
    assert!(!seen.contains(&0), "an answer did not come up: {seen:?}");
}

/// Makes a call of any kind: the number of its answer.
fn any_call(random: &mut Random) -> usize {
    Answer(random.pick(&CALLS)(random)).number().into()
}

/// A message, short as a rule.
fn message(random: &mut Random) -> Vec<u8> {
    let bound = random.pick(&[8, 40, 40, 200]);
    let bytes = random.below(bound);
    random.bytes(bytes)
}

/// The variant's number, or one that no variant has.
fn number(random: &mut Random, variant: &Variant) -> u32 {
    match random.once_in(12) {
        true => random.pick(&make::UNKNOWN),
        false => variant.number,
    }
}

/// How many bits of a last byte count, or now and then a number of them that
/// no byte has.
fn bit_number(random: &mut Random) -> u32 {
    match random.once_in(12) {
        true => random.pick(&make::BAD_BIT_NUMBERS),
        false => 1 + random.below(8) as u32,
    }
}

/// An output, now and then too short, for a result of `bytes` bytes.
fn output(random: &mut Random, bytes: usize) -> Vec<u8> {
    let bytes = match random.once_in(6) {
        true => random.below(bytes),
        false => bytes + random.below(5),
    };
    random.bytes(bytes)
}

/// An image of the variant, now and then with a byte more or less, or with
/// its last byte changed.
fn near_image(random: &mut Random, variant: &Variant) -> Vec<u8> {
    let mut image = make::image(random, variant);
    match random.below(10) {
        0 => image.push(0),
        1 => image.truncate(image.len() - 1),
        2 => *image.last_mut().expect("not empty") ^= 1,
        _ => {}
    }
    image
}

fn hash(random: &mut Random) -> u32 {
    let variant = make::variant(random);
    let message = message(random);
    let wanted = random.pick(&[0, 0, 1, 2, 256]);
    let out = output(random, make::result_bytes(variant, wanted));
    compare::hash(number(random, variant), &message, wanted, &out).0
}

fn hash_bits(random: &mut Random) -> u32 {
    let variant = make::variant(random);
    let (message, bits) = (message(random), bit_number(random));
    let wanted = random.pick(&[0, 0, 1, 2, 256]);
    let out = output(random, make::result_bytes(variant, wanted));
    compare::hash_bits(number(random, variant), &message, bits, wanted, &out).0
}

fn image(random: &mut Random) -> u32 {
    let variant = make::variant(random);
    let image = near_image(random, variant);
    let back = random.once_in(2);
    compare::permute(number(random, variant), &image, back).0
}

/// It has no answer: 0 stands for it.
fn cipher(random: &mut Random) -> u32 {
    let (key, state) = (random.array(), random.array());
    compare::cipher(key, state, random.once_in(2));
    0
}

fn running(random: &mut Random) -> u32 {
    let h = near_hasher(random);
    match random.below(5) {
        0 => compare::start(h, random.below(15) as u32).0,
        1 => compare::finish(h).0,
        2 => {
            let out = output(random, 36);
            compare::read(h, random.once_in(2), &out).0
        }
        3 => {
            let (piece, bits) = (message(random), bit_number(random));
            compare::update_bits(h, &piece, bits).0
        }
        _ => {
            let piece = message(random);
            compare::update(h, &piece).0
        }
    }
}

/// A well-formed running hash, in one of two cases with one bit of it changed.
fn near_hasher(random: &mut Random) -> Hasher {
    let variant = make::variant(random);
    let (stage, total) = (random.below(2) as u8, make::total(random));
    let mut h = make::well_formed(random, variant, stage, total);
    let bit = 1 << random.below(8);
    match random.below(10) {
        0 => h.variant ^= bit,
        1 => h.stage ^= bit,
        2 => h.total ^= 1 << random.below(32),
        3 => h.state[random.below(36)] ^= bit,
        4 => h.held[random.below(HELD_BYTES)] ^= bit,
        _ => {}
    }
    h
}

/// A sound list and its buffer or, in one of two cases, one with a byte
/// changed or lost.
fn near_list(random: &mut Random) -> (Vec<u8>, Vec<u8>) {
    let buffer = message(random);
    let entries: Vec<Entry> = make::entries(random, 9, buffer.len());
    let mut list = make::list(&entries);
    match random.below(8) {
        0 => list.truncate(list.len().saturating_sub(1)),
        1..=3 if !list.is_empty() => {
            // The low byte of an offset or a length.
            let low = 4 * random.below(list.len() / 4) + 3;
            list[low] ^= 1 << random.below(6);
        }
        _ => {}
    }
    (list, buffer)
}

fn one_entry(random: &mut Random) -> u32 {
    let (list, buffer) = near_list(random);
    let k = random.below(list.len() / 8 + 2);
    compare::entry(&list, k);
    compare::check_entry(&list, &buffer, k)
}

fn whole_list(random: &mut Random) -> u32 {
    let (list, buffer) = near_list(random);
    let variant = make::variant(random);
    let wanted = random.pick(&[0, 0, 1, 2, 256]);
    let out = output(random, make::result_bytes(variant, wanted));
    compare::hash_list(number(random, variant), &list, &buffer, wanted, &out).0
}

fn lost_block(random: &mut Random) -> u32 {
    let variant = make::variant(random);
    let message = message(random);
    let number = number(random, variant);
    let place = random.below(block_count(variant, 8 * message.len()) + 1);
    let mut image = near_image(random, variant);
    if random.once_in(2) {
        // Its own end state, which a block leads to.
        image = vec![0; variant.image_bytes()];
        assert!(wickslate::hash(variant.number, &message, 1, &mut image).is_done());
    }
    let out = output(random, make::block_bytes(variant));
    compare::recover(number, &message, place, &image, &out).0
}

fn lost_block_bits(random: &mut Random) -> u32 {
    let variant = make::variant(random);
    let (message, bits) = (message(random), bit_number(random));
    let number = number(random, variant);
    let place = random.below(block_count(variant, 8 * message.len()) + 1);
    let mut own = vec![0; variant.image_bytes()];
    let image = match wickslate::hash_bits(variant.number, &message, bits, 1, &mut own) {
        // Its own end state, which a block leads to.
        Answer(0) if random.once_in(2) => own,
        _ => near_image(random, variant),
    };
    let out = output(random, make::block_bytes(variant));
    compare::recover_bits(number, &message, bits, place, &image, &out).0
}

/// A manifest or, in one of two cases, one with a byte changed or lost, or with
/// its first record after the others.
fn records(random: &mut Random) -> u32 {
    let (mut list, _) = make::manifest(random, 4);
    match random.below(8) {
        0 => list.truncate(list.len().saturating_sub(1)),
        1..=2 if !list.is_empty() => {
            let place = random.below(list.len());
            list[place] ^= 1 << random.below(8);
        }
        3 if !list.is_empty() => list.rotate_left(RECORD_BYTES),
        _ => {}
    }
    compare::check_manifest(&list)
}

/// 16,777,215 bytes: whole, in pieces, and as that of a list of two segments;
/// and a bit less than they have.
fn longest_messages(random: &mut Random) {
    let (entries, buffer) = two_segments(random, MESSAGE_LIMIT - 2 - 16);
    let message = make::list_message(&entries, &buffer);
    assert_eq!(message.len(), MESSAGE_LIMIT);
    let expected = digest(FAST, &message).expect("not too long");
    let expect_same = |hash: &mut dyn FnMut(&mut [u8]) -> Answer| {
        let mut out = vec![0; expected.len()];
        assert!(hash(&mut out).is_done());
        assert_eq!(out, expected);
    };
    expect_same(&mut |out| wickslate::hash(FAST, &message, 0, out));
    let h = closed(random.cut(&message, 100_000));
    expect_same(&mut |out| wickslate::digest(&h, out));
    let list = make::list(&entries);
    expect_same(&mut |out| wickslate::hash_list(FAST, &list, &buffer, 0, out));
    let expected = digest_bits(FAST, &message, 7).expect("not too long");
    let mut out = vec![0; expected.len()];
    assert!(wickslate::hash_bits(FAST, &message, 7, 0, &mut out).is_done());
    assert_eq!(out, expected);
}

/// The running hash of a message of the greatest length.
fn closed(pieces: Vec<&[u8]>) -> Hasher {
    let mut h = make::none();
    assert!(wickslate::start(&mut h, FAST).is_done());
    for piece in pieces {
        assert!(wickslate::update(&mut h, piece).is_done());
    }
    assert_eq!(wickslate::update(&mut h, b"\xff").0, 4, "one byte more");
    assert!(wickslate::finish(&mut h).is_done());
    h
}

/// Two segments of `bytes` bytes together, and a buffer in which a gap of three
/// lies between them.
fn two_segments(random: &mut Random, bytes: usize) -> ([Entry; 2], Vec<u8>) {
    let first = bytes as u32 / 2;
    let second = bytes as u32 - first;
    ([(0, first), (first + 3, second)], random.bytes(bytes + 3))
}
