//! Messages that end inside a byte, whole, in pieces and with a lost block:
//! every number of bits, the bits that do not count, the limit in bits, and
//! the refusals 15 and 16.

use wickslate_conformance::chains::hexadecimal;
use wickslate_conformance::compare::{
    finish, hash, hash_bits, read, recover, recover_bits, start, update, update_bits,
};
use wickslate_conformance::make::{
    self, bits_of, counting, image, none, result_bytes, sponge, total, variant, well_formed,
    BAD_BIT_NUMBERS,
};
use wickslate_conformance::random::Random;
use wickslate_conformance::settings::{amount, minutes};
use wickslate_conformance::wickslate::{self, Answer, Hasher};
use wickslate_reference::bits::{pack, Order};
use wickslate_reference::padding::{block, block_count};
use wickslate_reference::running::HELD_BYTES;
use wickslate_reference::{
    digest_bits, end_state_bits, sponges, Family, Message, Padding, Variant, BIT_LIMIT,
    MESSAGE_LIMIT, VARIANTS,
};

/// The greatest total.
const LIMIT: u32 = BIT_LIMIT as u32;

/// Longer than any result.
const OUT: [u8; 40] = [0x5e; 40];

fn begun(variant: &Variant) -> Hasher {
    let (answer, h) = start(none(), variant.number);
    assert_eq!(answer, 0);
    h
}

/// The running hash after whole pieces and one whose last byte contributes
/// `bits` bits.
fn taken(variant: &Variant, pieces: &[&[u8]], last: &[u8], bits: u32) -> Hasher {
    let open = pieces.iter().fold(begun(variant), |h, piece| {
        let (answer, next) = update(h, piece);
        assert_eq!(answer, 0);
        next
    });
    let (answer, h) = update_bits(open, last, bits);
    assert_eq!(answer, 0);
    h
}

/// Ends the message: what is read must be what the whole message gives.
fn expect_whole(variant: &Variant, open: Hasher, message: &[u8], bits: u32) {
    assert_eq!(open.total as usize, bits_of(message, bits));
    let (answer, h) = finish(open);
    assert_eq!((answer, h.total), (0, open.total));
    for wanted in [0, 1] {
        let given = read(h, wanted != 0, &OUT);
        let expected = hash_bits(variant.number, message, bits, wanted, &OUT);
        assert_eq!((given.0, &given), (0, &expected));
    }
}

/// Every variant with a message of each length that is asked for, and every
/// number of bits.
fn each_ending(random: &mut Random, max: usize, mut call: impl FnMut(&Variant, &[u8], u32)) {
    for variant in &VARIANTS {
        for bytes in 1..=max {
            for bits in 1..=8 {
                call(variant, &random.bytes(bytes), bits);
            }
        }
    }
}

#[test]
fn whole_messages() {
    let mut random = Random::of_test("whole_messages");
    each_ending(&mut random, amount(40, 5), |variant, message, bits| {
        for wanted in [0, 1] {
            let out = &OUT[..result_bytes(variant, wanted)];
            let (answer, _) = hash_bits(variant.number, message, bits, wanted, out);
            assert_eq!(answer, 0);
        }
    });
}

#[test]
fn pieces_cut_at_every_byte() {
    let mut random = Random::of_test("pieces_cut_at_every_byte");
    each_ending(&mut random, amount(12, 3), |variant, message, bits| {
        for cut in 0..message.len() {
            let (first, last) = message.split_at(cut);
            let open = taken(variant, &[first], last, bits);
            expect_whole(variant, open, message, bits);
        }
    });
}

#[test]
fn pieces_of_one_byte() {
    let mut random = Random::of_test("pieces_of_one_byte");
    each_ending(&mut random, amount(12, 5), |variant, message, bits| {
        let pieces: Vec<&[u8]> = message.chunks(1).collect();
        let (last, before) = pieces.split_last().expect("a byte");
        expect_whole(variant, taken(variant, before, last, bits), message, bits);
    });
}

#[test]
fn long_traces() {
    let mut random = Random::of_test("long_traces");
    for variant in &VARIANTS {
        for bits in 1..=8 {
            let bytes = amount(2000, 100) + random.below(100);
            let message = random.bytes(bytes);
            let max = random.pick(&[9, 70, 900]);
            let pieces = random.cut(&message, max);
            let (last, before) = pieces.split_last().expect("a piece");
            expect_whole(variant, taken(variant, before, last, bits), &message, bits);
        }
    }
}

/// The bytes that hold the bits of a message that ends inside a byte, the 1
/// after them, and zeros.
fn padded(family: Family, message: &[u8], bits: u32) -> Vec<u8> {
    let (&last, before) = message.split_last().expect("a byte");
    let high = match family {
        Family::Photon | Family::LesamntaLw => last & counting(family, bits),
        Family::Spongent => last << (8 - bits),
    };
    let one = 0x80 >> bits;
    [before, &[high | one]].concat()
}

/// Padded by hand, the message fills whole blocks: a running hash that takes
/// these bytes has its end state when the last block is full. The calls
/// without a bit number say so.
#[test]
fn the_padded_message_in_plain_bytes() {
    let mut random = Random::of_test("the_padded_message_in_plain_bytes");
    each_ending(&mut random, amount(40, 10), |variant, message, bits| {
        if bits == 8 {
            return;
        }
        let mut bytes = padded(variant.family, message, bits);
        let length = bits_of(message, bits);
        if variant.is_sponge() {
            let blocks = length / variant.block_bits + 1;
            bytes.resize((blocks * variant.block_bits).div_ceil(8), 0);
        } else {
            // The message ends inside a block: the 1 is in that one too.
            bytes.resize(length.div_ceil(128) * 16 + 8, 0);
            bytes.extend((length as u64).to_be_bytes());
        }
        let (answer, full) = update(begun(variant), &bytes);
        assert_eq!((answer, full.held), (0, [0; HELD_BYTES]));
        let (_, ended) = finish(taken(variant, &[], message, bits));
        assert_eq!(full.state, ended.state, "{} {bits}", variant.name);
    });
}

/// The last block of short messages, taken back from the end state: PHOTON-144
/// adds it to its start state, and SPONGENT-88 to zeros.
#[test]
fn known_last_blocks() {
    let last = |number: u32, message: &[u8], bits| {
        let mut image = hash_bits(number, message, bits, 1, &OUT).1;
        image.truncate(VARIANTS[number as usize - 1].image_bytes());
        assert!(wickslate::unpermute(number, &mut image).is_done());
        image
    };
    let photon = |front: [u8; 2]| [&front[..], &[0; 13], &[0x20, 0x10, 0x10]].concat();
    assert_eq!(last(2, &[0b1010_0000], 3), photon([0b1011_0000, 0]));
    assert_eq!(last(2, &[0b1011_0111], 3), photon([0b1011_0000, 0]));
    assert_eq!(last(2, &[0xab, 0b1011_0111], 7), photon([0xab, 0xb7]));
    assert_eq!(last(2, &[0xb6, 0x60], 3), photon([0xb6, 0x70]), "header");
    let spongent = |front: u8| [&[front][..], &[0; 10]].concat();
    assert_eq!(last(6, &[0b0000_0111], 3), spongent(0b1111_0000));
    assert_eq!(last(6, &[0b1011_0111], 3), spongent(0b1111_0000));
    assert_eq!(last(6, &[0b1011_0110], 3), spongent(0b1101_0000));
    assert_eq!(last(6, &[0], 7), spongent(0b0000_0001), "seven bits 0");
    let end = end_state_bits(6, &[0xb6, 0x03], 3).expect("a short message");
    let found = recover_bits(6, &[0xb6, 0x03], 3, 1, &end, &[0]);
    assert_eq!(found, (0, vec![0x70]), "header");
    let end = end_state_bits(11, &[0xb6, 0x60], 3).expect("a short message");
    let found = recover_bits(11, &[0xb6, 0x60], 3, 1, &end, &[0; 16]);
    assert_eq!(found, (0, 11_u128.to_be_bytes().into()), "the length");
    let mut empty = vec![0; 11];
    assert!(wickslate::hash(6, b"", 1, &mut empty).is_done());
    assert!(wickslate::unpermute(6, &mut empty).is_done());
    assert_eq!(empty, spongent(0b1000_0000), "no bit");
}

/// A bit string of each length below 25, the shorter ones the front of the
/// longer: no two end in the same state.
#[test]
fn each_bit_more_is_a_different_message() {
    for variant in &VARIANTS {
        let mut ends = vec![hash(variant.number, b"", 1, &OUT)];
        for bytes in 1..=3 {
            for bits in 1..=8 {
                ends.push(hash_bits(variant.number, &[0; 3][..bytes], bits, 1, &OUT));
            }
        }
        for (k, end) in ends.iter().enumerate() {
            assert!(!ends[..k].contains(end), "{} {k}", variant.name);
        }
    }
}

#[test]
fn eight_bits_are_all_of_them() {
    let mut random = Random::of_test("eight_bits_are_all_of_them");
    for variant in &VARIANTS {
        let number = variant.number;
        for bytes in 1..=amount(20, 5) {
            let message = random.bytes(bytes);
            for wanted in [0, 1] {
                let with = hash_bits(number, &message, 8, wanted, &OUT);
                assert_eq!(with, hash(number, &message, wanted, &OUT));
            }
            let h = well_formed(&mut random, variant, 0, 8 * bytes as u32);
            assert_eq!(update_bits(h, &message, 8), update(h, &message));
            let end = end_state_bits(number, &message, 8).expect("a short message");
            for place in 0..=block_count(variant, 8 * bytes) {
                let with = recover_bits(number, &message, 8, place, &end, &OUT);
                assert_eq!(with, recover(number, &message, place, &end, &OUT));
            }
        }
    }
}

/// Every byte that has the same bits among those that count.
fn alike(family: Family, byte: u8, bits: u32) -> Vec<u8> {
    let counts = counting(family, bits);
    let alike: Vec<u8> = (0..=255)
        .filter(|other| (byte ^ other) & counts == 0)
        .collect();
    assert_eq!(alike.len(), 1 << (8 - bits));
    alike
}

#[test]
fn bits_that_do_not_count_change_nothing() {
    let mut random = Random::of_test("bits_that_do_not_count_change_nothing");
    each_ending(&mut random, amount(3, 1), |variant, message, bits| {
        let number = variant.number;
        let (&last, before) = message.split_last().expect("a byte");
        let end = end_state_bits(number, message, bits).expect("a short message");
        let place = block_count(variant, bits_of(message, bits)) - 1;
        let all = |message: &[u8]| {
            (
                hash_bits(number, message, bits, 0, &OUT),
                hash_bits(number, message, bits, 1, &OUT),
                update_bits(begun(variant), message, bits),
                recover_bits(number, message, bits, place, &end, &OUT),
            )
        };
        let expected = all(message);
        let others = alike(variant.family, last, bits).into_iter();
        for other in others.step_by(amount(1, 13)) {
            assert_eq!(all(&[before, &[other]].concat()), expected);
        }
    });
}

/// The bits of a message as a byte and the bit's value in it, in their order.
fn places(family: Family, message: &[u8], bits: u32) -> Vec<(usize, u8)> {
    let last = message.len() - 1;
    let counts = |byte| match byte == last {
        true => counting(family, bits),
        false => 0xff,
    };
    (0..8 * message.len())
        .map(|k| (k / 8, 0x80 >> (k % 8)))
        .filter(|&(byte, bit)| counts(byte) & bit != 0)
        .collect()
}

/// The message with some bits of one block turned over, and the place of that
/// block.
fn with_other_block(
    random: &mut Random,
    variant: &Variant,
    message: &[u8],
    bits: u32,
) -> (Vec<u8>, usize) {
    let all = places(variant.family, message, bits);
    let blocks: Vec<_> = all.chunks(variant.block_bits).collect();
    let place = random.below(blocks.len());
    let mut other = message.to_vec();
    while other == message {
        for &(byte, bit) in blocks[place] {
            if random.once_in(3) {
                other[byte] ^= bit;
            }
        }
    }
    (other, place)
}

/// The image of the end state, read from a running hash that took the message
/// in random pieces.
fn end_state(random: &mut Random, variant: &Variant, message: &[u8], bits: u32) -> Vec<u8> {
    let max = random.pick(&[2, 5, 40]);
    let pieces = random.cut(message, max);
    let (last, before) = pieces.split_last().expect("a piece");
    let (_, h) = finish(taken(variant, before, last, bits));
    let out = vec![0x5e; variant.image_bytes()];
    let given = read(h, true, &out);
    assert_eq!(given, hash_bits(variant.number, message, bits, 1, &out));
    given.1
}

#[test]
fn one_changed_block_shows() {
    let mut random = Random::of_test("one_changed_block_shows");
    for _ in 0..amount(40, 2) {
        for variant in sponges() {
            let (bytes, bits) = (1 + random.below(40), 1 + random.below(8) as u32);
            let message = random.bytes(bytes);
            let (other, _) = with_other_block(&mut random, variant, &message, bits);
            let [first, second] =
                [&message, &other].map(|m| end_state(&mut random, variant, m, bits));
            assert_ne!(first, second, "{} {bits}", variant.name);
        }
    }
}

/// Each single bit that counts, and each that does not. That one shows is
/// promised of the sponges, and seen here of Lesamnta-LW too.
#[test]
fn one_changed_bit_shows_if_it_counts() {
    let mut random = Random::of_test("one_changed_bit_shows_if_it_counts");
    each_ending(&mut random, amount(6, 2), |variant, message, bits| {
        let end = |message: &[u8]| hash_bits(variant.number, message, bits, 1, &OUT);
        let (kept, counts) = (end(message), places(variant.family, message, bits));
        for place in (0..8 * message.len()).map(|k| (k / 8, 0x80 >> (k % 8))) {
            let mut other = message.to_vec();
            other[place.0] ^= place.1;
            assert_eq!(end(&other) != kept, counts.contains(&place), "{place:?}");
        }
    });
}

/// The block of a message at a place, packed, and the rest of the output.
fn own_block(variant: &Variant, message: &[u8], bits: u32, place: usize) -> Vec<u8> {
    let message = Message::ending(message, bits).bits(variant.family);
    let bits = block(variant, Padding::NextBit, &message, place);
    let mut packed = pack(Order::HighestFirst, &bits);
    packed.extend(&OUT[packed.len()..]);
    packed
}

/// The message as it is, and with zeros for all bits of a block.
#[test]
fn each_block_is_found_again() {
    let mut random = Random::of_test("each_block_is_found_again");
    each_ending(&mut random, amount(11, 3), |variant, message, bits| {
        let end = end_state_bits(variant.number, message, bits).expect("a short message");
        let all = places(variant.family, message, bits);
        let count = block_count(variant, all.len());
        let found = make::places(variant, all.len());
        for place in 0..found.start {
            let given = recover_bits(variant.number, message, bits, place, &end, &OUT);
            assert_eq!(given, (17, OUT.to_vec()));
        }
        for place in found {
            let own = own_block(variant, message, bits, place);
            let mut forgotten = message.to_vec();
            let after = all.iter().skip(place * variant.block_bits);
            for &(byte, bit) in after.take(variant.block_bits) {
                forgotten[byte] &= !bit;
            }
            for known in [message, &forgotten] {
                let given = recover_bits(variant.number, known, bits, place, &end, &OUT);
                assert_eq!(given, (0, own.clone()), "{} {bits} {place}", variant.name);
            }
        }
        let given = recover_bits(variant.number, message, bits, count, &end, &OUT);
        assert_eq!(given, (7, OUT.to_vec()));
    });
}

/// The end state of a message that differs in one block gives that block and,
/// but for chance, none at the places beside it.
#[test]
fn a_changed_block_is_found() {
    let mut random = Random::of_test("a_changed_block_is_found");
    for _ in 0..amount(300, 10) {
        let variant = sponge(&mut random);
        let (bytes, bits) = (1 + random.below(60), 1 + random.below(8) as u32);
        let message = random.bytes(bytes);
        let (other, place) = with_other_block(&mut random, variant, &message, bits);
        let end = end_state_bits(variant.number, &other, bits).expect("a short message");
        let given = |place| recover_bits(variant.number, &message, bits, place, &end, &OUT);
        assert_eq!(given(place), (0, own_block(variant, &other, bits, place)));
        for elsewhere in [place.wrapping_sub(1), place + 1] {
            if elsewhere < block_count(variant, bits_of(&message, bits)) {
                assert_eq!(given(elsewhere), (8, OUT.to_vec()));
            }
        }
    }
}

/// Almost no state is one block away, and both sides agree on each.
#[test]
fn states_that_no_block_leads_to() {
    let mut random = Random::of_test("states_that_no_block_leads_to");
    for _ in 0..amount(600, 20) {
        let variant = variant(&mut random);
        let (bytes, bits) = (1 + random.below(30), 1 + random.below(8) as u32);
        let message = random.bytes(bytes);
        let end = image(&mut random, variant);
        let place = make::place(&mut random, variant, bits_of(&message, bits));
        let given = recover_bits(variant.number, &message, bits, place, &end, &OUT);
        assert_eq!(given, (8, OUT.to_vec()));
    }
}

/// After a piece that ends inside a byte none can follow, not even an empty
/// one, but the message can end there; after a whole byte all can.
#[test]
fn no_piece_follows_inside_a_byte() {
    let mut random = Random::of_test("no_piece_follows_inside_a_byte");
    each_ending(&mut random, amount(9, 2), |variant, message, bits| {
        let h = taken(variant, &[], message, bits);
        let expected = if bits == 8 { 0 } else { 16 };
        for piece in [&b""[..], b"\0", b"\xff\xff"] {
            assert_eq!(update(h, piece).0, expected);
        }
        for next in 1..=8 {
            assert_eq!(update_bits(h, b"\xff", next).0, expected);
            assert_eq!(update_bits(h, b"", next).0, 15, "and no bytes");
        }
        for next in BAD_BIT_NUMBERS {
            assert_eq!(update_bits(h, b"\xff", next).0, 15);
        }
        expect_whole(variant, h, message, bits);
    });
}

/// In every call, before all that is checked after the bit number.
#[test]
fn numbers_of_bits_that_no_byte_has() {
    let mut random = Random::of_test("numbers_of_bits_that_no_byte_has");
    for variant in &VARIANTS {
        let number = variant.number;
        let end = image(&mut random, variant);
        let with_bytes = (0..=16)
            .chain(BAD_BIT_NUMBERS)
            .map(|bits| (bits, &b"ab"[..]));
        let without = (0..=16).chain(BAD_BIT_NUMBERS).map(|bits| (bits, &b""[..]));
        for (bits, message) in with_bytes.chain(without) {
            let sound = (1..=8).contains(&bits) && !message.is_empty();
            let bad = |otherwise| if sound { otherwise } else { 15 };
            assert_eq!(update_bits(begun(variant), message, bits).0, bad(0));
            for wanted in [0, 1] {
                let given = |out| hash_bits(number, message, bits, wanted, out).0;
                assert_eq!(given(&OUT), bad(0));
                assert_eq!(given(&[]), bad(5), "and too short");
                let unknown = hash_bits(0, message, bits, wanted, &OUT).0;
                assert_eq!(unknown, 1, "after no variant");
            }
            let given = |place, end: &[u8]| recover_bits(number, message, bits, place, end, &OUT).0;
            let place = if variant.is_sponge() { 0 } else { 1 };
            assert_eq!(given(place, &end), bad(8));
            assert_eq!(given(usize::MAX, &end), bad(7), "and no such place");
            assert_eq!(given(place, &[]), bad(6), "and no image");
            if !variant.is_sponge() {
                assert_eq!(given(0, &[]), bad(17), "and not the last place");
            }
        }
    }
}

#[test]
fn pieces_after_any_total() {
    let mut random = Random::of_test("pieces_after_any_total");
    for _ in 0..amount(3000, 50) {
        let variant = variant(&mut random);
        let total = total(&mut random);
        let h = well_formed(&mut random, variant, 0, total);
        let (bytes, bits) = (1 + random.below(20), 1 + random.below(8) as u32);
        let piece = random.bytes(bytes);
        let expected = match total as usize + bits_of(&piece, bits) {
            _ if !total.is_multiple_of(8) => 16,
            ..=BIT_LIMIT => 0,
            _ => 4,
        };
        let (answer, after) = update_bits(h, &piece, bits);
        assert_eq!(answer, expected);
        assert_eq!(finish(after).0, 0);
    }
}

/// With every number of held bits, whatever they are, at both ends of the
/// range of totals.
#[test]
fn every_message_can_end() {
    let mut random = Random::of_test("every_message_can_end");
    for variant in &VARIANTS {
        let block = variant.block_bits as u32;
        for total in (0..3 * block).chain(LIMIT - block + 1..=LIMIT) {
            let h = well_formed(&mut random, variant, 0, total);
            let (answer, ended) = finish(h);
            assert_eq!((answer, ended.total), (0, total));
            assert_eq!(ended.held, [0; HELD_BYTES]);
            for wanted in [0, 1] {
                let out = &OUT[..result_bytes(variant, wanted)];
                assert_eq!(read(ended, wanted != 0, out).0, 0);
            }
        }
    }
}

/// Up to the limit every bit passes, and not one more. Lengths that would pass a
/// word when taken eight times cannot be lent to any call: no memory has so
/// many bytes.
#[test]
fn the_bits_stop_at_the_limit() {
    let mut random = Random::of_test("the_bits_stop_at_the_limit");
    let long = random.bytes(MESSAGE_LIMIT + 1);
    for variant in &VARIANTS {
        for left in 0..=6 {
            let h = well_formed(&mut random, variant, 0, LIMIT - 8 * left as u32);
            for bits in 1..=8 {
                if left > 0 {
                    let (answer, near) = update_bits(h, &long[..left], bits);
                    assert_eq!((answer, near.total), (0, LIMIT - 8 + bits));
                    let after = if bits == 8 { 4 } else { 16 };
                    assert_eq!(update_bits(near, b"\xff", 1).0, after);
                    assert_eq!(finish(near).0, 0);
                }
                assert_eq!(update_bits(h, &long[..left + 1], bits).0, 4);
            }
        }
        for bits in [1, 8] {
            assert_eq!(update_bits(begun(variant), &long, bits).0, 4);
        }
    }
}

/// 134,217,719 and 134,217,720 bits pass the check of their length: what is
/// refused is the output, or the image at the last place, or the place after
/// it. To hash them takes too long here. One bit more is too long.
#[test]
fn lengths_at_the_limit() {
    let long = vec![0x31; MESSAGE_LIMIT + 1];
    let longest = &long[1..];
    for variant in &VARIANTS {
        let number = variant.number;
        for bits in [7, 8] {
            for wanted in [0, 1] {
                let answer = wickslate::hash_bits(number, longest, bits, wanted, &mut [0; 9]);
                assert_eq!(answer, Answer(5), "{}", variant.name);
            }
            let count = block_count(variant, bits_of(longest, bits));
            let before = if variant.is_sponge() { 6 } else { 17 };
            for (place, refusal) in [(count - 2, before), (count - 1, 6), (count, 7)] {
                let given = recover_bits(number, longest, bits, place, &[], &OUT);
                assert_eq!(given.0, refusal, "{}", variant.name);
            }
        }
        assert_eq!(hash_bits(number, &long, 1, 1, &OUT).0, 4);
        assert_eq!(recover_bits(number, &long, 1, 0, &[], &OUT).0, 4);
    }
}

/// The sponge that takes the least time for a byte.
const FAST: &Variant = &VARIANTS[4];

/// The digests of the longest message of bytes 31, by the number of bits that
/// the last one contributes, as the Rust version gave them.
const OF_LONGEST: [(&Variant, u32, &str); 3] = [
    (
        FAST,
        7,
        "6b186e05f907bf58d8f2c21a78243dda09071b34ca2ca6fa6c96367a9f78931e",
    ),
    (
        FAST,
        8,
        "439942cae5995486622ae4e0916178391b821ef95305819181da1ffa70e148f9",
    ),
    (
        &VARIANTS[10],
        7,
        "6fb7c9ad244070e14e381c441933336b3073b5078c743219596076f9990e74b6",
    ),
];

/// And they are hashed to their end, whole and in two pieces, after which
/// nothing passes. Under valgrind it would take minutes, and is left out.
#[test]
fn messages_at_the_limit() {
    let message = vec![0x31; MESSAGE_LIMIT];
    for (variant, bits, expected) in OF_LONGEST.into_iter().take(amount(3, 0)) {
        let number = variant.number;
        if minutes().is_some() {
            let given = digest_bits(number, &message, bits).expect("not too long");
            assert_eq!(hexadecimal(&given), expected);
        }
        let mut out = vec![0; variant.digest_bytes()];
        assert!(wickslate::hash_bits(number, &message, bits, 0, &mut out).is_done());
        assert_eq!(hexadecimal(&out), expected);

        let mut h = Hasher::default();
        let (first, last) = message.split_at(9_999_999);
        assert!(wickslate::start(&mut h, number).is_done());
        assert!(wickslate::update(&mut h, first).is_done());
        assert!(wickslate::update_bits(&mut h, last, bits).is_done());
        assert_eq!(h.total, LIMIT - 8 + bits);
        let refusal = if bits == 8 { 4 } else { 16 };
        assert_eq!(wickslate::update_bits(&mut h, b"\xff", 1).0, refusal);
        assert!(wickslate::finish(&mut h).is_done());
        out.fill(0);
        assert!(wickslate::digest(&h, &mut out).is_done());
        assert_eq!(hexadecimal(&out), expected);
    }
}
