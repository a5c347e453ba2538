//! Messages that end inside a byte: their padded blocks by hand, what of a
//! last byte counts, pieces, the lost block, and the refusals 15 and 16 among
//! the others.

mod generator;

use std::collections::HashSet;

use generator::Generator;
use wickslate_reference::bits::{pack, Order};
use wickslate_reference::padding::{block, block_count};
use wickslate_reference::recover::{recover, recover_bits};
use wickslate_reference::running::{start, Running, HELD_BYTES};
use wickslate_reference::{
    digest, digest_bits, end_state, end_state_bits, message_check, unpermute, variant, Family,
    Message, Padding, Variant, BIT_LIMIT, MESSAGE_LIMIT, VARIANTS,
};

const SEED: u64 = 0x0006_2919_2bad_5eed;

/// The blocks of a padded bit string.
fn blocks(variant: &Variant, message: &[bool]) -> Vec<Vec<bool>> {
    (0..block_count(variant, message.len()))
        .map(|index| block(variant, Padding::NextBit, message, index))
        .collect()
}

/// The same for a message of bytes, as digits.
fn digits(number: u32, message: Message) -> Vec<String> {
    let variant = variant(number).expect("a number from 1 to 11");
    let digit = |bit| if bit { '1' } else { '0' };
    blocks(variant, &message.bits(variant.family))
        .into_iter()
        .map(|block| block.into_iter().map(digit).collect())
        .collect()
}

#[test]
fn known_blocks_of_photon() {
    let of = |number, bytes, bits| digits(number, Message::ending(bytes, bits));
    assert_eq!(of(2, &[0b1010_0000], 3), ["1011000000000000"]);
    assert_eq!(of(2, &[0b1011_1111], 3), ["1011000000000000"]);
    assert_eq!(of(1, &[0xab, 0xcd], 3), ["10101011110100000000"]);
    // A bit less than a block, a block, and a bit more.
    let three = [0b0000_0000, 0b0000_0000, 0b0001_0100];
    assert_eq!(of(1, &three, 3), ["00000000000000000001"]);
    assert_eq!(
        of(1, &three, 4),
        ["00000000000000000001", "10000000000000000000"]
    );
    assert_eq!(
        of(1, &three, 5),
        ["00000000000000000001", "01000000000000000000"]
    );
}

/// The high bits, as in PHOTON, and the length behind them.
#[test]
fn known_blocks_of_lesamnta_lw() {
    let length = |bits: usize| format!("{}{bits:064b}", "0".repeat(64));
    let with_zeros = |front: &str| format!("{front:0<128}");
    let of = |bytes, bits| digits(11, Message::ending(bytes, bits));
    let three = [with_zeros("1011"), length(3)];
    assert_eq!(of(&[0b1010_0000], 3), three);
    assert_eq!(of(&[0b1011_1111], 3), three);
    let eleven = [with_zeros("101010111101"), length(11)];
    assert_eq!(of(&[0xab, 0xcd], 3), eleven);
    let one = format!("1{:0127b}", 0);
    assert_eq!(digits(11, Message::whole(&[])), [one]);
}

#[test]
fn known_blocks_of_spongent() {
    let of = |number, bytes, bits| digits(number, Message::ending(bytes, bits));
    assert_eq!(of(6, &[0x07], 3), ["11110000"]);
    assert_eq!(of(6, &[0xf6], 3), ["11010000"]);
    assert_eq!(of(6, &[0x00], 7), ["00000001"]);
    assert_eq!(of(6, &[0x00], 8), ["00000000", "10000000"]);
    assert_eq!(digits(6, Message::whole(&[])), ["10000000"]);
    assert_eq!(of(8, &[0xab, 0x05], 3), ["1010101110110000"]);
    assert_eq!(of(8, &[0xab, 0xcd, 0x01], 2)[1], "0110000000000000");
}

/// From the end state of a message of one block, taken back, the block can be
/// read where it was added.
#[test]
fn blocks_are_added_to_the_state_as_they_are() {
    let mut photon = end_state_bits(1, &[0xab, 0xcd], 3).expect("not refused");
    assert_eq!(unpermute(1, &mut photon), 0);
    let expected = [0xab, 0xd0, 0, 0, 0, 0, 0, 0, 0, 0x01, 0x41, 0x41, 0x00];
    assert_eq!(photon, expected);
    let mut spongent = end_state_bits(8, &[0xab, 0x05], 3).expect("not refused");
    assert_eq!(unpermute(8, &mut spongent), 0);
    assert_eq!(spongent[..2], [0xab, 0b1011_0000]);
    assert_eq!(spongent[2..], [0; 20]);
}

/// Every bit string of so many bits.
fn strings(bits: usize) -> impl Iterator<Item = Vec<bool>> {
    (0..1 << bits).map(move |value: usize| (0..bits).map(|k| value >> k & 1 == 1).collect())
}

#[test]
fn no_two_bit_strings_have_the_same_padded_row() {
    for variant in &VARIANTS {
        let mut seen = HashSet::new();
        for message in (0..=12).flat_map(strings) {
            let row = blocks(variant, &message).concat();
            assert_eq!(row.len() % variant.block_bits, 0);
            assert!(seen.insert(row), "{}: {message:?}", variant.name);
        }
        assert_eq!(seen.len(), (1 << 13) - 1);
    }
}

/// The bits of a last byte that count.
fn counting(family: Family, bits: u32) -> u8 {
    match family {
        Family::Photon | Family::LesamntaLw => 0xff << (8 - bits),
        Family::Spongent => 0xff >> (8 - bits),
    }
}

/// A message of some bytes for each number of them.
fn messages() -> impl Iterator<Item = Vec<u8>> {
    let mut generator = Generator::new(SEED);
    (1..12).map(move |bytes| generator.bytes(bytes))
}

#[test]
fn eight_bits_are_all_of_them() {
    for message in messages() {
        for Variant { number, .. } in VARIANTS {
            assert_eq!(digest_bits(number, &message, 8), digest(number, &message));
            let end = end_state_bits(number, &message, 8);
            assert_eq!(end, end_state(number, &message));
            let end = end.expect("not refused");
            let [mut with, mut without] = [[0xa0; 17]; 2];
            let given = recover_bits(number, &message, 8, 1, &end, &mut with);
            assert_eq!(given, recover(number, &message, 1, &end, &mut without));
            assert_eq!(with, without);
            let (_, begun) = start(number);
            assert_eq!(begun.update_bits(&message, 8), begun.update(&message));
        }
    }
}

/// The first place at which a block can be found: for Lesamnta-LW the last.
fn first_found(variant: &Variant, message: &[u8], bits: u32) -> usize {
    let length = Message::ending(message, bits).length() as usize;
    match variant.is_sponge() {
        true => 0,
        false => block_count(variant, length) - 1,
    }
}

/// A message and its bit number, and one with every bit turned over that does
/// not count.
fn alike(variant: &Variant, message: &[u8], bits: u32) -> [Vec<u8>; 2] {
    let mut other = message.to_vec();
    let last = other.last_mut().expect("a byte");
    *last ^= !counting(variant.family, bits);
    [message.to_vec(), other]
}

#[test]
fn bits_that_do_not_count_change_nothing() {
    for message in messages() {
        for variant in &VARIANTS {
            for bits in 1..=8 {
                let number = variant.number;
                let both = alike(variant, &message, bits);
                let [one, other] = both.each_ref().map(|m| digest_bits(number, m, bits));
                assert_eq!(one, other);
                let [one, other] = both.each_ref().map(|m| end_state_bits(number, m, bits));
                assert_eq!(one, other);
                let end = one.expect("not refused");
                let place = first_found(variant, &message, bits);
                let [one, other] = both.each_ref().map(|m| {
                    let mut out = [0xa0; 17];
                    (recover_bits(number, m, bits, place, &end, &mut out), out)
                });
                assert_eq!((one.0, one), (0, other));
                let (_, begun) = start(number);
                let [one, other] = both.each_ref().map(|m| begun.update_bits(m, bits));
                assert_eq!(one, other);
            }
        }
    }
}

/// Every bit that counts is another message, with another end state. That is
/// promised of the sponges, and seen here of Lesamnta-LW too.
#[test]
fn each_bit_that_counts_shows() {
    for message in messages().take(5) {
        for variant in &VARIANTS {
            for bits in 1..=8 {
                let end = end_state_bits(variant.number, &message, bits);
                let last = message.len() - 1;
                for place in 0..message.len() {
                    for bit in (0..8).map(|k| 1 << k) {
                        let mut other = message.clone();
                        other[place] ^= bit;
                        let counts = place < last || counting(variant.family, bits) & bit != 0;
                        let changed = end_state_bits(variant.number, &other, bits) != end;
                        assert_eq!(changed, counts, "{} {bits} {place}", variant.name);
                    }
                }
            }
        }
    }
}

/// A message cut once, at every byte, and its last piece with a bit number.
#[test]
fn pieces_give_what_the_whole_message_gives() {
    for message in messages() {
        for variant in &VARIANTS {
            for bits in 1..=8 {
                let number = variant.number;
                let digest = digest_bits(number, &message, bits).expect("not refused");
                let end = end_state_bits(number, &message, bits).expect("not refused");
                for cut in 0..message.len() {
                    let (first, last) = message.split_at(cut);
                    let (status, open) = start(number).1.update(first).1.update_bits(last, bits);
                    let total = 8 * (message.len() as u32 - 1) + bits;
                    assert_eq!((status, open.total), (0, total));
                    let (status, closed) = open.finish();
                    assert_eq!((status, closed.total), (0, total));
                    for (image, expected) in [(false, &digest), (true, &end)] {
                        let mut out = vec![0xa0; expected.len()];
                        assert_eq!(closed.read(image, &mut out), 0);
                        assert_eq!(out, *expected);
                    }
                }
            }
        }
    }
}

/// The held bits are those of the bit string from the high end of the first
/// byte, whichever end of the last byte they came from.
#[test]
fn held_bits_are_packed_from_the_high_end() {
    let held = |number, bytes: &[u8], bits| start(number).1.update_bits(bytes, bits).1.held;
    let with_zeros = |front: &[u8]| {
        let mut held = [0; HELD_BYTES];
        held[..front.len()].copy_from_slice(front);
        held
    };
    assert_eq!(held(2, &[0xb7], 3), with_zeros(&[0b1010_0000]));
    assert_eq!(held(6, &[0xb7], 3), with_zeros(&[0b1110_0000]));
    assert_eq!(held(6, &[0xab, 0x35], 7), with_zeros(&[0b0110_1010]));
    assert_eq!(held(8, &[0xab, 0x35], 7), with_zeros(&[0xab, 0b0110_1010]));
    let five = held(1, &[0xab, 0xcd, 0xef], 5);
    assert_eq!(five, with_zeros(&[0b1000_0000]));
    let seven = held(11, &[0xab, 0x35], 7);
    assert_eq!(seven, with_zeros(&[0xab, 0b0011_0100]));
    assert_eq!(held(11, &[0xff; 16], 7)[14..], [0xff, 0xfe]);
    assert_eq!(held(11, &[0xff; 16], 8), with_zeros(&[]));
    assert_eq!(held(11, &[0xff; 17], 1), with_zeros(&[0x80]));
}

#[test]
fn a_message_has_its_own_blocks_at_every_place() {
    for message in messages() {
        for variant in &VARIANTS {
            for bits in 1..=8 {
                let end = end_state_bits(variant.number, &message, bits).expect("not refused");
                let string = Message::ending(&message, bits).bits(variant.family);
                let first = first_found(variant, &message, bits);
                for (place, own) in blocks(variant, &string).iter().enumerate() {
                    let own = pack(Order::HighestFirst, own);
                    let expected = match place < first {
                        true => (17, vec![0xa0; own.len()]),
                        false => (0, own),
                    };
                    let mut out = vec![0xa0; expected.1.len()];
                    let given = recover_bits(variant.number, &message, bits, place, &end, &mut out);
                    assert_eq!((given, out), expected, "{} {bits}", variant.name);
                }
            }
        }
    }
}

/// A bit more may be a block more, and then its place is there.
#[test]
fn places_follow_the_number_of_bits() {
    let place = |bits| {
        let end = end_state_bits(1, &[0, 0, 0], bits).expect("not refused");
        recover_bits(1, &[0, 0, 0], bits, 1, &end, &mut [0; 3])
    };
    assert_eq!([1, 2, 3].map(place), [7; 3], "one block");
    assert_eq!([4, 5, 6, 7, 8].map(place), [0; 5], "two blocks");
    let place_of_lesamnta = |bytes: usize, bits| {
        let end = end_state_bits(11, &[0; 17][..bytes], bits).expect("not refused");
        recover_bits(11, &[0; 17][..bytes], bits, 2, &end, &mut [0; 16])
    };
    for bits in 1..=8 {
        assert_eq!(place_of_lesamnta(16, bits), 7, "two blocks");
        assert_eq!(place_of_lesamnta(17, bits), 0, "three blocks");
    }
}

/// Each check before the one that follows it.
#[test]
fn refusals_of_whole_messages_come_in_order() {
    let long = vec![0; MESSAGE_LIMIT + 1];
    for call in [digest_bits, end_state_bits] {
        for bits in [0, 9, 10, 255, 256 + 3, u32::MAX] {
            assert_eq!(call(0, b"", bits), Err(1));
            assert_eq!(call(12, &long, bits), Err(1));
            for message in [b"", &b"abc"[..], &long] {
                assert_eq!(call(1, message, bits), Err(15));
                assert_eq!(call(11, message, bits), Err(15));
            }
        }
        for bits in 1..=8 {
            assert_eq!(call(0, b"abc", bits), Err(1));
            assert_eq!(call(1, b"", bits), Err(15), "no bytes");
            assert_eq!(call(1, &long, bits), Err(4));
            assert!(call(1, b"abc", bits).is_ok());
        }
    }
}

#[test]
fn refusals_of_the_lost_block_come_in_order() {
    let long = vec![0; MESSAGE_LIMIT + 1];
    let good = end_state_bits(1, b"abc", 3).expect("not refused");
    let wrong = [0xa0; 13];
    type Call<'a> = (u32, &'a [u8], u32, usize, &'a [u8], usize, u8);
    let end = end_state_bits(11, b"abc", 3).expect("not refused");
    let nowhere = [0xa0; 32];
    let calls: [Call; 19] = [
        (0, &long, 9, 0, &good, 3, 1),
        (1, &long, 9, 0, &good, 3, 15),
        (1, b"abc", 0, 0, &good, 3, 15),
        (1, b"", 8, 0, &good, 3, 15),
        (1, &long, 1, usize::MAX, &good, 3, 4),
        (1, b"abc", 3, 1, &good[..12], 3, 7),
        (1, b"abc", 3, 0, &good[..12], 2, 6),
        (1, b"abc", 3, 0, &wrong, 2, 5),
        (1, b"abc", 3, 0, &wrong, 3, 8),
        (1, b"abc", 3, 0, &good, 3, 0),
        (12, &long, 9, 0, &end, 16, 1),
        (11, &long, 9, 0, &end, 16, 15),
        (11, &long, 1, 0, &end, 16, 4),
        (11, b"abc", 3, 2, &end[..31], 16, 7),
        (11, b"abc", 3, 0, &end[..31], 15, 17),
        (11, b"abc", 3, 1, &end[..31], 15, 6),
        (11, b"abc", 3, 1, &nowhere, 15, 5),
        (11, b"abc", 3, 1, &nowhere, 16, 8),
        (11, b"abc", 3, 1, &end, 16, 0),
    ];
    for (number, message, bits, place, image, bytes, refusal) in calls {
        let mut out = vec![0xa0; bytes];
        let given = recover_bits(number, message, bits, place, image, &mut out);
        assert_eq!(given, refusal);
        assert!(refusal == 0 || out == vec![0xa0; bytes]);
    }
}

/// Makes a call with a running hash that it leaves as it was.
fn expect_refused(running: Running, call: impl Fn(Running) -> (u8, Running), refusal: u8) {
    assert_eq!(call(running), (refusal, running));
}

#[test]
fn refusals_of_pieces_come_in_order() {
    let long = vec![0; MESSAGE_LIMIT + 1];
    for Variant { number, .. } in VARIANTS {
        let (_, inside) = start(number).1.update_bits(b"abc", 3);
        let (_, closed) = inside.finish();
        let malformed = Running { stage: 2, ..inside };
        for message in [b"", &b"\xff"[..], &long] {
            expect_refused(malformed, |r| r.update(message), 2);
            expect_refused(closed, |r| r.update(message), 3);
            expect_refused(inside, |r| r.update(message), 16);
            for bits in [0, 9, 256 + 3, u32::MAX] {
                expect_refused(malformed, |r| r.update_bits(message, bits), 2);
                expect_refused(closed, |r| r.update_bits(message, bits), 3);
                expect_refused(inside, |r| r.update_bits(message, bits), 15);
            }
        }
        expect_refused(inside, |r| r.update_bits(b"", 8), 15);
        for bits in 1..=8 {
            expect_refused(inside, |r| r.update_bits(b"\xff", bits), 16);
            expect_refused(inside, |r| r.update_bits(&long, bits), 16);
            expect_refused(start(number).1, |r| r.update_bits(&long, bits), 4);
        }
    }
}

/// A running hash that has taken so many bits and holds none that are set.
fn after(number: u32, total: usize) -> Running {
    Running {
        total: total as u32,
        ..start(number).1
    }
}

/// The last bits up to the limit pass, and not one more.
#[test]
fn the_limit_is_one_of_bits() {
    assert_eq!(BIT_LIMIT, 8 * MESSAGE_LIMIT);
    let longest = vec![0; MESSAGE_LIMIT];
    for Variant { number, .. } in VARIANTS {
        let near = after(number, BIT_LIMIT - 8);
        for bits in 1..=8 {
            assert!(message_check(number, Message::ending(&longest, bits)).is_ok());
            let (status, taken) = near.update_bits(b"\xff", bits);
            assert_eq!((status, taken.total), (0, near.total + bits));
            expect_refused(near, |r| r.update_bits(b"\xff\xff", bits), 4);
            expect_refused(after(number, BIT_LIMIT), |r| r.update_bits(b"\0", bits), 4);
        }
        assert_eq!(after(number, BIT_LIMIT).update(b"").0, 0);
        expect_refused(after(number, BIT_LIMIT - 1), |r| r.update(b"\0"), 16);
        expect_refused(after(number, BIT_LIMIT + 1), |r| r.update(b""), 2);
        expect_refused(after(number, BIT_LIMIT + 8), Running::finish, 2);
    }
}

/// As many bits may be held as the total leaves past whole blocks, and each
/// bit behind them has to be zero.
#[test]
fn held_bits_follow_from_the_total_in_bits() {
    for variant in &VARIANTS {
        for total in (0..=2 * variant.block_bits).chain(BIT_LIMIT - 40..=BIT_LIMIT) {
            let count = total % variant.block_bits;
            for bit in 0..8 * HELD_BYTES {
                let mut running = after(variant.number, total);
                running.held[bit / 8] = 0x80 >> (bit % 8);
                let status = running.finish().0;
                assert_eq!(status, if bit < count { 0 } else { 2 }, "{total} {bit}");
            }
        }
    }
}
