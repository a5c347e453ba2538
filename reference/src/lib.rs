//! PHOTON, SPONGENT and Lesamnta-LW of ISO/IEC 29192-5, written from the
//! standard's rules.
//!
//! This is the second version that the proved library is compared with, so
//! it takes other ways to the same results: constants come from their shift
//! registers, the mixing matrix is a matrix power, inverses are solved for
//! or read backwards, a message is the list of its bits wherever it ends, the
//! sponge works on such lists, the words of all rounds of a cipher are one row,
//! and a report keeps its records in a map.
//!
//! Variants go by the numbers 1 to 11 of [`VARIANTS`]. A call that is
//! refused gives its refusal number and leaves the caller's bytes as they
//! were. [`spongent::Spongent::trace`] tells SPONGENT's rounds layer by layer,
//! and [`lesamnta`] has the block cipher of Lesamnta-LW.
//!
//! ```
//! use wickslate_reference::{digest, digest_bits, permute};
//!
//! let message = b"Sponge + Present = Spongent";
//! assert_eq!(digest(6, message).unwrap()[..4], [0x69, 0x97, 0x1b, 0xf9]);
//! assert_eq!(digest(11, b"abc").unwrap()[..4], [0xab, 0x32, 0xca, 0x45]);
//! assert_eq!(digest(12, message), Err(1));
//!
//! // Three bits of the last byte count, in SPONGENT the low ones.
//! assert_eq!(digest_bits(6, &[0xb7], 3), digest_bits(6, &[0x07], 3));
//! assert_eq!(digest_bits(6, &[], 3), Err(15));
//!
//! let mut image = [0; 12];
//! assert_eq!(permute(6, &mut image), 6, "an image of SPONGENT-88 has 11 bytes");
//! assert_eq!(permute(11, &mut image), 17, "Lesamnta-LW is no sponge");
//! ```

#![forbid(unsafe_code)]
#![warn(missing_docs)]

pub mod bits;
pub mod chain;
pub mod field;
pub mod image;
pub mod lesamnta;
pub mod lookup;
pub mod manifest;
pub mod matrix;
pub mod message;
pub mod padding;
pub mod photon;
pub mod printed;
pub mod recover;
pub mod running;
pub mod sbox;
pub mod segments;
pub mod sponge;
pub mod spongent;
pub mod variants;

pub use message::Message;
pub use padding::Padding;
pub use printed::{cases, padding_table, rounds_page, Cases};
pub use variants::{sponges, variant, Family, Variant, VARIANTS};

/// The number of a call that was not refused.
pub const DONE: u8 = 0;
/// Refusal: the variant number is not 1 to 11.
pub const UNKNOWN_VARIANT: u8 = 1;
/// Refusal: the running hash is not well formed.
pub const MALFORMED: u8 = 2;
/// Refusal: the running hash is closed, or for a read still open.
pub const WRONG_STAGE: u8 = 3;
/// Refusal: the message has more than [`BIT_LIMIT`] bits.
pub const TOO_LONG: u8 = 4;
/// Refusal: the output is shorter than the result.
pub const OUTPUT_TOO_SHORT: u8 = 5;
/// Refusal: the image has the wrong length, or a bit set past the state.
pub const BAD_IMAGE: u8 = 6;
/// Refusal: the place or the entry's number is not below the count.
pub const OUT_OF_RANGE: u8 = 7;
/// Refusal: no block leads to the state.
pub const NO_BLOCK: u8 = 8;
/// Refusal: not whole entries, or more than 512.
pub const BAD_LIST: u8 = 9;
/// Refusal: an entry begins before the one before it ends.
pub const MISORDERED: u8 = 10;
/// Refusal: an entry ends past the buffer.
pub const PAST_END: u8 = 11;
/// Refusal: a manifest that cannot be read, is not in whole records, or has
/// more than 512.
pub const BAD_MANIFEST: u8 = 12;
/// Refusal: a record's variant is not 1 to 11, or a byte behind its digest is
/// not zero.
pub const BAD_RECORD: u8 = 13;
/// Refusal: a record's axis number is not above that of the record before it.
pub const NOT_RISING: u8 = 14;
/// Refusal: the bit number is not 1 to 8, or is given with no bytes.
pub const BAD_BIT_NUMBER: u8 = 15;
/// Refusal: the pieces so far end inside a byte, so that none can follow.
pub const INSIDE_BYTE: u8 = 16;
/// Refusal: Lesamnta-LW has no permutation, and only its last block can be
/// found again.
pub const NOT_SPONGE: u8 = 17;

/// The greatest number of message bytes.
pub const MESSAGE_LIMIT: usize = 16_777_215;
/// The greatest number of message bits, which so many bytes have.
pub const BIT_LIMIT: usize = 134_217_720;

/// Runs the variant's permutation on an image in place. Gives 0, or the
/// refusal number 1, 17 or 6.
pub fn permute(number: u32, image: &mut [u8]) -> u8 {
    change_image(number, image, sponge::permute_state)
}

/// Runs the inverse of the variant's permutation on an image in place.
/// Gives 0, or the refusal number 1, 17 or 6.
pub fn unpermute(number: u32, image: &mut [u8]) -> u8 {
    change_image(number, image, sponge::unpermute_state)
}

/// The message's digest, or the refusal number 1 or 4.
pub fn digest(number: u32, message: &[u8]) -> Result<Vec<u8>, u8> {
    digest_with(number, Padding::NextBit, message)
}

/// The digest of a message of whose last byte `bits` bits count, or the
/// refusal number 1, 15 or 4.
pub fn digest_bits(number: u32, message: &[u8], bits: u32) -> Result<Vec<u8>, u8> {
    digest_of(number, Padding::NextBit, Message::ending(message, bits))
}

/// The image of the state after the message's last block, or the refusal
/// number 1 or 4.
pub fn end_state(number: u32, message: &[u8]) -> Result<Vec<u8>, u8> {
    end_state_of(number, Message::whole(message))
}

/// The same for a message of whose last byte `bits` bits count, or the
/// refusal number 1, 15 or 4.
pub fn end_state_bits(number: u32, message: &[u8], bits: u32) -> Result<Vec<u8>, u8> {
    end_state_of(number, Message::ending(message, bits))
}

/// The message's digest under either reading of the padding rule, or the
/// refusal number 1 or 4.
pub fn digest_with(number: u32, padding: Padding, message: &[u8]) -> Result<Vec<u8>, u8> {
    digest_of(number, padding, Message::whole(message))
}

/// The variant that hashes this message, or the refusal number 1, 15 or 4.
pub fn message_check(number: u32, message: Message) -> Result<&'static Variant, u8> {
    let variant = variant(number).ok_or(UNKNOWN_VARIANT)?;
    if !message.is_sound() {
        return Err(BAD_BIT_NUMBER);
    }
    if message.length() > BIT_LIMIT as u128 {
        return Err(TOO_LONG);
    }
    Ok(variant)
}

fn digest_of(number: u32, padding: Padding, message: Message) -> Result<Vec<u8>, u8> {
    let variant = message_check(number, message)?;
    let state = chain::end_state(variant, padding, &message.bits(variant.family));
    Ok(bits::pack(
        bits::Order::HighestFirst,
        &chain::digest(variant, &state),
    ))
}

fn end_state_of(number: u32, message: Message) -> Result<Vec<u8>, u8> {
    let variant = message_check(number, message)?;
    let bits = message.bits(variant.family);
    let state = chain::end_state(variant, Padding::NextBit, &bits);
    Ok(image::of_state(variant, &state))
}

/// Replaces the state in an image by what `change` makes of it.
fn change_image(number: u32, image: &mut [u8], change: fn(&Variant, &mut [bool])) -> u8 {
    let Some(variant) = variant(number) else {
        return UNKNOWN_VARIANT;
    };
    if !variant.is_sponge() {
        return NOT_SPONGE;
    }
    let Some(mut state) = image::to_state(variant, image) else {
        return BAD_IMAGE;
    };
    change(variant, &mut state);
    image.copy_from_slice(&image::of_state(variant, &state));
    DONE
}
