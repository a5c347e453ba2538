//! Numbers of four bytes at the border: neither a variant nor a choice nor a
//! bit number is cut to its low byte, and an answer has room for every entry.

use wickslate_conformance::compare::{
    check_entry, hash, hash_bits, hash_list, permute, recover, recover_bits, start, update_bits,
};
use wickslate_conformance::make::{block_bytes, list, result_bytes, well_formed, Entry};
use wickslate_conformance::random::Random;
use wickslate_conformance::wickslate::Answer;
use wickslate_reference::{end_state, end_state_bits, Variant, VARIANTS};

const MESSAGE: &[u8] = b"6.20 m";
const OUT: [u8; 36] = [0x5e; 36];

/// Numbers of more than a byte whose low byte is this one.
fn above_a_byte(low: u32) -> impl Iterator<Item = u32> {
    let with_bit = (8..32).map(move |bit| low | 1 << bit);
    with_bit.chain([low | 0xffff_ff00])
}

/// Every call that takes a variant, with nothing wrong but perhaps its number
/// and, in the second and the third, that Lesamnta-LW has no permutation.
fn answers(random: &mut Random, variant: &Variant, number: u32) -> Vec<u32> {
    let open = well_formed(random, variant, 0, 7);
    let end = end_state(variant.number, MESSAGE).expect("a short message");
    let segments = list(&[(0, 2), (3, 2)]);
    let block = &OUT[..block_bytes(variant)];
    let mut answers = vec![
        start(open, number).0,
        permute(number, &end, false).0,
        permute(number, &end, true).0,
        recover(number, MESSAGE, 1, &end, block).0,
        recover_bits(number, MESSAGE, 8, 1, &end, block).0,
    ];
    for wanted in [0, 1] {
        let out = &OUT[..result_bytes(variant, wanted)];
        answers.push(hash(number, MESSAGE, wanted, out).0);
        answers.push(hash_bits(number, MESSAGE, 3, wanted, out).0);
        answers.push(hash_list(number, &segments, MESSAGE, wanted, out).0);
    }
    answers
}

#[test]
fn a_variant_is_not_cut_to_a_byte() {
    let mut random = Random::of_test("a_variant_is_not_cut_to_a_byte");
    for variant in &VARIANTS {
        let mut sound = [0; 11];
        if !variant.is_sponge() {
            sound[1..3].fill(17);
        }
        assert_eq!(answers(&mut random, variant, variant.number), sound);
        for number in above_a_byte(variant.number).chain([u32::MAX]) {
            assert_eq!(answers(&mut random, variant, number), [1; 11], "{number}");
        }
    }
}

#[test]
fn a_choice_is_not_cut_to_a_byte() {
    let segments = list(&[(0, 6)]);
    for variant in &VARIANTS {
        let of_message = |wanted| hash(variant.number, MESSAGE, wanted, &OUT);
        let of_bits = |wanted| hash_bits(variant.number, MESSAGE, 3, wanted, &OUT);
        let over_list = |wanted| hash_list(variant.number, &segments, MESSAGE, wanted, &OUT);
        for wanted in above_a_byte(0) {
            assert_eq!(of_message(wanted), of_message(1));
            assert_eq!(of_bits(wanted), of_bits(1));
            assert_eq!(over_list(wanted), over_list(1));
        }
    }
}

/// Every call that takes a bit number, with nothing wrong but perhaps that: the
/// number `given` in the place of one that a byte can have.
fn answers_to_bits(random: &mut Random, variant: &Variant, bits: u32, given: u32) -> Vec<u32> {
    let number = variant.number;
    let open = well_formed(random, variant, 0, 8);
    let end = end_state_bits(number, MESSAGE, bits).expect("a short message");
    vec![
        update_bits(open, MESSAGE, given).0,
        hash_bits(number, MESSAGE, given, 0, &OUT).0,
        hash_bits(number, MESSAGE, given, 1, &OUT).0,
        recover_bits(number, MESSAGE, given, 1, &end, &OUT).0,
    ]
}

#[test]
fn a_bit_number_is_not_cut_to_a_byte() {
    let mut random = Random::of_test("a_bit_number_is_not_cut_to_a_byte");
    for variant in &VARIANTS {
        for bits in 1..=8 {
            let mut answers = |given| answers_to_bits(&mut random, variant, bits, given);
            assert_eq!(answers(bits), [0; 4]);
            for given in above_a_byte(bits).chain([u32::MAX]) {
                assert_eq!(answers(given), [15; 4], "{given}");
            }
        }
    }
}

/// A list of 512 entries, of which each in turn begins a byte too early, or
/// ends past the buffer.
#[test]
fn every_entry_can_be_named() {
    let sound: Vec<Entry> = (0..512).map(|k| (2 * k + 1, 1)).collect();
    let buffer = [0x31; 1024];
    let expect_named = |k: usize, entry: Entry, refusal: u8| {
        let mut entries = sound.clone();
        entries[k] = entry;
        let list = list(&entries);
        for answer in [
            check_entry(&list, &buffer, k),
            hash_list(1, &list, &buffer, 0, &OUT).0,
        ] {
            let answer = Answer(answer);
            assert_eq!((answer.number(), answer.entry()), (refusal, k as u32));
        }
    };
    for (k, &(offset, length)) in sound.iter().enumerate() {
        expect_named(k, (offset, 1024), 11);
        if k > 0 {
            expect_named(k, (offset - 2, length), 10);
        }
    }
}
