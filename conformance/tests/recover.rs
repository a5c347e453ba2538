//! The lost block, and the refusals 1, 4, 7, 17, 6, 5 and 8 alone and against
//! their neighbours.

use wickslate_conformance::compare::recover;
use wickslate_conformance::make::{block_bytes, image, place, places, sponge, variant, UNKNOWN};
use wickslate_conformance::random::Random;
use wickslate_conformance::settings::amount;
use wickslate_conformance::wickslate;
use wickslate_reference::bits::{pack, Order};
use wickslate_reference::padding::{block, block_count};
use wickslate_reference::{
    end_state, permute, sponges, Message, Padding, Variant, BIT_LIMIT, MESSAGE_LIMIT, VARIANTS,
};

const MESSAGE: &[u8] = b"Bar 14, 6.20 m, 0.4 m/s";
const OUT: [u8; 17] = [0x5e; 17];

/// The block of a message at a place, packed, and the rest of the output.
fn own_block(variant: &Variant, message: &[u8], place: usize) -> Vec<u8> {
    let message = Message::whole(message).bits(variant.family);
    let bits = block(variant, Padding::NextBit, &message, place);
    let mut packed = pack(Order::HighestFirst, &bits);
    packed.extend(&OUT[packed.len()..]);
    packed
}

#[test]
fn every_block_of_a_message() {
    let mut random = Random::of_test("every_block_of_a_message");
    for variant in &VARIANTS {
        for bytes in (0..amount(14, 5)).chain([15, 16, 17, 32]) {
            let message = random.bytes(bytes);
            let end = end_state(variant.number, &message).expect("a short message");
            for place in places(variant, 8 * bytes) {
                let own = own_block(variant, &message, place);
                let mut forgotten = message.clone();
                for byte in forgotten_bytes(variant, place, bytes) {
                    forgotten[byte] = 0;
                }
                for known in [&message, &forgotten] {
                    let given = recover(variant.number, known, place, &end, &OUT);
                    assert_eq!(given, (0, own.clone()), "{} {place}", variant.name);
                }
            }
        }
    }
}

/// The bytes of a message that lie wholly in one block: none in the last of
/// Lesamnta-LW.
fn forgotten_bytes(variant: &Variant, place: usize, bytes: usize) -> impl Iterator<Item = usize> {
    let first = (place * variant.block_bits).div_ceil(8);
    let end = (place + 1) * variant.block_bits / 8;
    first.min(bytes)..end.min(bytes)
}

/// The end state of a message that differs in one block gives that block and,
/// but for chance, none at the places beside it.
#[test]
fn blocks_of_a_different_message() {
    let mut random = Random::of_test("blocks_of_a_different_message");
    for _ in 0..amount(300, 10) {
        let variant = sponge(&mut random);
        let bytes = 1 + random.below(60);
        let message = random.bytes(bytes);
        let mut other = message.clone();
        let byte = random.below(bytes);
        other[byte] ^= 0x80 >> random.below(8);
        let end = end_state(variant.number, &other).expect("a short message");
        let changed = |place: &usize| {
            own_block(variant, &message, *place) != own_block(variant, &other, *place)
        };
        let place = (0..block_count(variant, 8 * bytes))
            .find(changed)
            .expect("one");
        let given = recover(variant.number, &message, place, &end, &OUT);
        assert_eq!(given, (0, own_block(variant, &other, place)));
        for elsewhere in [place.wrapping_sub(1), place + 1] {
            if elsewhere < block_count(variant, 8 * bytes) {
                let given = recover(variant.number, &message, elsewhere, &end, &OUT);
                assert_eq!(given, (8, OUT.to_vec()));
            }
        }
    }
}

/// Almost no state is one block away, and both sides agree on each.
#[test]
fn any_end_states() {
    let mut random = Random::of_test("any_end_states");
    for _ in 0..amount(600, 20) {
        let variant = variant(&mut random);
        let bytes = random.below(30);
        let message = random.bytes(bytes);
        let end = image(&mut random, variant);
        let place = place(&mut random, variant, 8 * bytes);
        assert_eq!(recover(variant.number, &message, place, &end, &OUT).0, 8);
    }
}

/// Each bit after the block, set before the last permutation, is out of any
/// block's reach; each bit of the block is not.
#[test]
fn single_bits_of_the_state_before_the_last_permutation() {
    for variant in sponges() {
        let mut start = end_state(variant.number, b"").expect("the empty message");
        assert!(wickslate::unpermute(variant.number, &mut start).is_done());
        for bit in 0..variant.state_bits {
            let mut end = start.clone();
            // Blocks cover the same bytes in both families, and whole bytes
            // but for a nibble, which is the high one.
            end[bit / 8] ^= 0x80 >> (bit % 8);
            assert_eq!(permute(variant.number, &mut end), 0);
            let (answer, _) = recover(variant.number, b"", 0, &end, &OUT);
            let reached = bit < variant.block_bits;
            assert_eq!(
                answer,
                if reached { 0 } else { 8 },
                "{} {bit}",
                variant.name
            );
        }
    }
}

#[test]
fn no_block_of_spongent_88_reaches_the_second_byte() {
    let mut end = [0; 11];
    end[1] = 1;
    assert!(wickslate::permute(6, &mut end).is_done());
    assert_eq!(recover(6, b"", 0, &end, &OUT), (8, OUT.to_vec()));
}

/// A call in which as little is wrong as is asked for.
struct Call<'a> {
    number: u32,
    message: &'a [u8],
    place: usize,
    image: Vec<u8>,
    out: usize,
}

impl Call<'_> {
    /// Nothing is wrong.
    fn sound(variant: &Variant) -> Call<'static> {
        Call {
            number: variant.number,
            message: MESSAGE,
            place: 3.min(places(variant, 8 * MESSAGE.len()).end - 1),
            image: end_state(variant.number, MESSAGE).expect("a short message"),
            out: block_bytes(variant),
        }
    }

    fn answer(&self) -> u32 {
        let out = vec![0x5e; self.out];
        recover(self.number, self.message, self.place, &self.image, &out).0
    }
}

/// Every image that is none: too short, too long, and with spare bits set, if
/// there are any.
fn bad_images(variant: &Variant, sound: &[u8]) -> Vec<Vec<u8>> {
    let mut bad = vec![Vec::new(), sound[1..].to_vec(), [sound, &[0]].concat()];
    if !variant.state_bits.is_multiple_of(8) {
        for bit in [1, 2, 4, 8] {
            let mut spare = sound.to_vec();
            *spare.last_mut().expect("not empty") |= bit;
            bad.push(spare);
        }
    }
    bad
}

#[test]
fn unknown_variants_come_first() {
    let long = vec![0; MESSAGE_LIMIT + 1];
    let sound = Call::sound(&VARIANTS[0]);
    for number in UNKNOWN {
        let call = Call {
            number,
            ..Call::sound(&VARIANTS[0])
        };
        assert_eq!(call.answer(), 1);
        assert_eq!(
            Call {
                message: &long,
                ..call
            }
            .answer(),
            1,
            "and too long"
        );
    }
    assert_eq!(sound.answer(), 0);
}

#[test]
fn too_long_comes_before_the_place() {
    let long = vec![0; MESSAGE_LIMIT + 1];
    for variant in &VARIANTS {
        let call = Call {
            message: &long,
            ..Call::sound(variant)
        };
        assert_eq!(call.answer(), 4);
        assert_eq!(
            Call {
                place: usize::MAX,
                ..call
            }
            .answer(),
            4
        );
    }
}

#[test]
fn the_place_comes_before_the_image() {
    for variant in &VARIANTS {
        let count = block_count(variant, 8 * MESSAGE.len());
        for place in [count, count + 1, 1 << 32, usize::MAX] {
            let call = Call {
                place,
                ..Call::sound(variant)
            };
            assert_eq!(call.answer(), 7);
            assert_eq!(
                Call {
                    image: Vec::new(),
                    ..call
                }
                .answer(),
                7,
                "and no image"
            );
        }
        assert_eq!(
            Call {
                place: count - 1,
                ..Call::sound(variant)
            }
            .answer(),
            0
        );
    }
}

/// Any place of Lesamnta-LW but the last.
#[test]
fn a_place_that_is_not_the_last_comes_before_the_image() {
    for variant in &VARIANTS {
        let first = places(variant, 8 * MESSAGE.len()).start;
        assert_eq!(first, if variant.is_sponge() { 0 } else { 2 });
        for place in 0..first {
            let call = Call {
                place,
                ..Call::sound(variant)
            };
            assert_eq!(call.answer(), 17);
            let call = Call {
                image: Vec::new(),
                ..call
            };
            assert_eq!(call.answer(), 17, "and no image");
            assert_eq!(Call { out: 0, ..call }.answer(), 17, "and too short");
        }
    }
}

/// The longest message has its last place, and no place after it. For
/// Lesamnta-LW the place before will not do.
#[test]
fn places_of_the_longest_message() {
    let longest = vec![0; MESSAGE_LIMIT];
    for variant in &VARIANTS {
        let count = block_count(variant, BIT_LIMIT);
        for (place, refusal) in [(count - 1, 6), (count, 7)] {
            let call = Call {
                message: &longest,
                place,
                image: Vec::new(),
                ..Call::sound(variant)
            };
            assert_eq!(call.answer(), refusal, "{}", variant.name);
        }
        let call = Call {
            message: &longest,
            place: count - 2,
            image: Vec::new(),
            ..Call::sound(variant)
        };
        let refusal = if variant.is_sponge() { 6 } else { 17 };
        assert_eq!(call.answer(), refusal, "{}", variant.name);
    }
}

#[test]
fn the_image_comes_before_the_output() {
    for variant in &VARIANTS {
        let sound = Call::sound(variant);
        for image in bad_images(variant, &sound.image) {
            let call = Call {
                image,
                ..Call::sound(variant)
            };
            assert_eq!(call.answer(), 6);
            assert_eq!(Call { out: 0, ..call }.answer(), 6, "and too short");
        }
    }
}

#[test]
fn the_output_comes_before_the_block() {
    let mut random = Random::of_test("the_output_comes_before_the_block");
    for variant in &VARIANTS {
        let elsewhere = image(&mut random, variant);
        for out in 0..18 {
            let call = Call {
                out,
                ..Call::sound(variant)
            };
            let short = out < block_bytes(variant);
            assert_eq!(call.answer(), if short { 5 } else { 0 });
            let call = Call {
                image: elsewhere.clone(),
                ..call
            };
            assert_eq!(call.answer(), if short { 5 } else { 8 }, "and no block");
        }
    }
}
