//! The lost block.

use wickslate_reference::padding::{block, block_count};
use wickslate_reference::recover::recover;
use wickslate_reference::{bits, end_state, permute, sponges, Message, Padding, Variant, VARIANTS};

const MESSAGE: &[u8] = b"Bar 14, 6.20 m, 0.4 m/s";

fn block_bytes(variant: &Variant) -> usize {
    variant.block_bits.div_ceil(8)
}

/// The block of a message at a place, packed.
fn own_block(variant: &Variant, message: &[u8], place: usize) -> Vec<u8> {
    let message = Message::whole(message).bits(variant.family);
    let own = block(variant, Padding::NextBit, &message, place);
    bits::pack(bits::Order::HighestFirst, &own)
}

#[test]
fn a_message_has_its_own_blocks_at_every_place() {
    for variant in sponges() {
        for place in 0..block_count(variant, 8 * MESSAGE.len()) {
            expect_own_block(variant, MESSAGE, place);
        }
    }
}

/// Lesamnta-LW's own block is found at the last place, whether the length stands
/// there alone or behind the 1.
#[test]
fn lesamnta_lw_has_its_own_last_block() {
    let lesamnta_lw = &VARIANTS[10];
    for message in [b"", &MESSAGE[..1], &MESSAGE[..15], &MESSAGE[..16], MESSAGE] {
        let last = block_count(lesamnta_lw, 8 * message.len()) - 1;
        expect_own_block(lesamnta_lw, message, last);
    }
}

/// The block of a message is found from its end state, and what lies behind it
/// in the output stays.
fn expect_own_block(variant: &Variant, message: &[u8], place: usize) {
    let end = end_state(variant.number, message).unwrap();
    let mut out = [0xa0; 17];
    assert_eq!(recover(variant.number, message, place, &end, &mut out), 0);
    let (front, behind) = out.split_at(block_bytes(variant));
    assert_eq!(front, own_block(variant, message, place));
    assert!(behind.iter().all(|&byte| byte == 0xa0));
}

/// Another block at a place leads to another state, from which it comes back.
#[test]
fn a_changed_block_is_found() {
    for variant in sponges() {
        let mut other = MESSAGE.to_vec();
        other[0] ^= 0x80;
        let end = end_state(variant.number, &other).unwrap();
        let mut out = vec![0; block_bytes(variant)];
        assert_eq!(recover(variant.number, MESSAGE, 0, &end, &mut out), 0);
        assert_eq!(out, own_block(variant, &other, 0));
    }
}

#[test]
fn no_block_of_spongent_88_reaches_the_second_byte() {
    let mut image = [0; 11];
    image[1] = 1;
    assert_eq!(permute(6, &mut image), 0);
    let mut out = [0xa0];
    assert_eq!(recover(6, b"", 0, &image, &mut out), 8);
    assert_eq!(out, [0xa0]);
}

/// The end state of another message is no block away, since only the last one is
/// looked for and an earlier one is another.
#[test]
fn no_last_block_of_lesamnta_lw_mends_another() {
    let mut other = MESSAGE.to_vec();
    other[0] ^= 0x80;
    let end = end_state(11, &other).unwrap();
    let mut out = [0xa0; 16];
    assert_eq!(recover(11, MESSAGE, 2, &end, &mut out), 8);
    assert_eq!(out, [0xa0; 16]);
}

/// Each check before the one that follows it.
#[test]
fn refusals_come_in_order() {
    let long = vec![0; 16_777_216];
    let good = end_state(1, MESSAGE).unwrap();
    let count = block_count(&VARIANTS[0], 8 * MESSAGE.len());
    let mut spare = good.clone();
    spare[12] |= 1;
    let wrong = vec![0xa0; 13];
    type Call<'a> = (u32, &'a [u8], usize, &'a [u8], usize, u8);
    let end = end_state(11, MESSAGE).unwrap();
    let nowhere = vec![0xa0; 32];
    let calls: [Call; 17] = [
        (0, &long, 0, &good, 3, 1),
        (1, &long, usize::MAX, &good, 3, 4),
        (1, MESSAGE, count, &good[..12], 3, 7),
        (1, MESSAGE, 0, &good[..12], 2, 6),
        (1, MESSAGE, 0, &[good.as_slice(), &[0]].concat(), 3, 6),
        (1, MESSAGE, 0, &spare, 2, 6),
        (1, MESSAGE, 0, &wrong, 2, 5),
        (1, MESSAGE, 0, &wrong, 3, 8),
        // Lesamnta-LW has three blocks of it.
        (12, &long, 0, &end, 16, 1),
        (11, &long, usize::MAX, &end, 16, 4),
        (11, MESSAGE, 3, &end[..31], 16, 7),
        (11, MESSAGE, 1, &end[..31], 15, 17),
        (11, MESSAGE, 0, &end, 16, 17),
        (11, MESSAGE, 2, &end[..31], 15, 6),
        (11, MESSAGE, 2, &[end.as_slice(), &[0]].concat(), 16, 6),
        (11, MESSAGE, 2, &nowhere, 15, 5),
        (11, MESSAGE, 2, &nowhere, 16, 8),
    ];
    for (number, message, place, image, bytes, refusal) in calls {
        let mut out = vec![0xa0; bytes];
        assert_eq!(recover(number, message, place, image, &mut out), refusal);
        assert!(out.iter().all(|&byte| byte == 0xa0));
    }
}
