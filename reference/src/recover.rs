//! The block that leads to an end state, at a place among a message's
//! padded blocks.

use crate::bits::{pack, Order};
use crate::message::Message;
use crate::padding::{block, block_count, Padding};
use crate::running::write_front;
use crate::{chain, image, message_check, sponge};
use crate::{BAD_IMAGE, DONE, NOT_SPONGE, NO_BLOCK, OUTPUT_TOO_SHORT, OUT_OF_RANGE};

/// Writes the block at `place` that leads to the end state over the front of
/// `out`. Refusals 1, 4, 7, 17, 6, 5 and 8.
pub fn recover(number: u32, message: &[u8], place: usize, end: &[u8], out: &mut [u8]) -> u8 {
    recover_of(number, Message::whole(message), place, end, out)
}

/// The same for a message of whose last byte `bits` bits count. Refusals 1,
/// 15, 4, 7, 17, 6, 5 and 8.
pub fn recover_bits(
    number: u32,
    message: &[u8],
    bits: u32,
    place: usize,
    end: &[u8],
    out: &mut [u8],
) -> u8 {
    recover_of(number, Message::ending(message, bits), place, end, out)
}

fn recover_of(number: u32, message: Message, place: usize, end: &[u8], out: &mut [u8]) -> u8 {
    let variant = match message_check(number, message) {
        Ok(variant) => variant,
        Err(refusal) => return refusal,
    };
    let count = block_count(variant, message.length() as usize);
    if place >= count {
        return OUT_OF_RANGE;
    }
    // To take a step of Lesamnta-LW back takes the key, which is half of the
    // state before it: nothing leads back over the blocks behind a place.
    if !variant.is_sponge() && place + 1 < count {
        return NOT_SPONGE;
    }
    let Some(mut back) = image::to_state(variant, end) else {
        return BAD_IMAGE;
    };
    if out.len() < variant.block_bits.div_ceil(8) {
        return OUTPUT_TOO_SHORT;
    }
    let bits = message.bits(variant.family);
    let of = |index| block(variant, Padding::NextBit, &bits, index);
    let mut forth = chain::start_state(variant);
    for index in 0..place {
        chain::block_step(variant, &mut forth, &of(index));
    }
    for index in (place + 1..count).rev() {
        sponge::block_step_back(variant, &mut back, &of(index));
    }
    let Some(found) = chain::block_between(variant, &forth, &back) else {
        return NO_BLOCK;
    };
    let status = write_front(&pack(Order::HighestFirst, &found), out);
    debug_assert_eq!(status, DONE);
    status
}
