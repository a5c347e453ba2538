//! Calls without a fault, everything that can be wrong with one, and the
//! faults of each operation in the order in which it checks for them.

use std::sync::LazyLock;

use wickslate_reference::manifest::{RECORD_BYTES, RECORD_LIMIT};
use wickslate_reference::padding::block_count;
use wickslate_reference::running::HELD_BYTES;
use wickslate_reference::{end_state, end_state_bits, Variant, BIT_LIMIT, MESSAGE_LIMIT};

use crate::compare::at;
use crate::make::{
    bits_of, block_bytes, filled_manifest, image, lesamnta_lw, list, result_bytes, spare_held,
    spare_state, well_formed, Entry,
};
use crate::random::Random;
use crate::wickslate::Hasher;

const MESSAGE: &[u8] = b"Bar 14, 6.20 m, 0.4 m/s";

/// The axis of the first record; both bytes of its number count.
const AXIS: u16 = 258;

/// A message with a byte too many.
pub static LONG: LazyLock<Vec<u8>> = LazyLock::new(|| vec![0x31; MESSAGE_LIMIT + 1]);

/// What calls are made with; each operation takes a part of it.
#[derive(Clone)]
pub struct Call {
    /// The variant's.
    pub number: u32,
    /// A running hash.
    pub h: Hasher,
    /// Also a piece, and the buffer of a list.
    pub message: &'static [u8],
    /// The number of bits that its last byte contributes, if a call says it.
    pub bits: u32,
    /// That of the lost block.
    pub place: usize,
    /// Of the message's end state.
    pub image: Vec<u8>,
    /// Those of the list.
    pub entries: Vec<Entry>,
    /// The bytes that the list lacks at its end.
    pub cut: usize,
    /// The number of one of the entries.
    pub entry: usize,
    /// A manifest of two records, with room for axis numbers below theirs.
    pub manifest: Vec<u8>,
    /// The bytes of the output.
    pub out: usize,
}

impl Call {
    /// Nothing is wrong for any operation on an open running hash, nor for any
    /// other but that Lesamnta-LW has no permutation.
    pub fn sound(variant: &Variant) -> Call {
        Call::about(variant, MESSAGE)
    }

    /// The same about this message; the place and the entries may be past its
    /// end. The place of Lesamnta-LW is the last.
    pub fn about(variant: &Variant, message: &'static [u8]) -> Call {
        let mut random = Random::of_test("a sound call");
        let place = match variant.is_sponge() {
            true => 3,
            false => block_count(variant, 8 * message.len()) - 1,
        };
        Call {
            number: variant.number,
            h: well_formed(&mut random, variant, 0, 8 * 11),
            message,
            bits: 8,
            place,
            image: end_state(variant.number, message).expect("within the limit"),
            entries: vec![(0, 2), (3, 2)],
            cut: 0,
            entry: 1,
            manifest: filled_manifest(variant, AXIS..AXIS + 2),
            out: 36,
        }
    }

    /// The same about a message whose last byte contributes `bits` bits.
    pub fn with_bits(self, bits: u32) -> Call {
        let end = end_state_bits(self.number, self.message, bits);
        Call {
            bits,
            image: end.expect("some bytes, within the limit"),
            ..self
        }
    }

    /// Nothing is wrong for a read.
    pub fn closed(variant: &Variant) -> Call {
        let mut call = Call::sound(variant);
        close(&mut call);
        call
    }

    /// The bytes of the list.
    pub fn list(&self) -> Vec<u8> {
        let mut list = list(&self.entries);
        list.truncate(list.len() - self.cut);
        list
    }

    /// An output as it is before the call.
    pub fn output(&self) -> Vec<u8> {
        vec![0x5e; self.out]
    }
}

/// A closed running hash holds no bits.
fn close(call: &mut Call) {
    call.h.stage = 1;
    call.h.held = [0; HELD_BYTES];
}

/// Something that is wrong: the answer to it, and how a call comes by it.
pub struct Fault<'a> {
    /// The refusal, and the entry that it names.
    pub answer: u32,
    spoil: Box<dyn Fn(&mut Call) + 'a>,
}

impl Fault<'_> {
    /// The call with this wrong as well.
    pub fn spoil(&self, call: &Call) -> Call {
        let mut spoilt = call.clone();
        (self.spoil)(&mut spoilt);
        spoilt
    }
}

fn fault<'a>(answer: u32, spoil: impl Fn(&mut Call) + 'a) -> Fault<'a> {
    Fault {
        answer,
        spoil: Box::new(spoil),
    }
}

fn unknown_variant(variant: &Variant) -> Vec<Fault<'_>> {
    [0, 12, 256 + variant.number, u32::MAX]
        .map(|number| fault(1, move |call| call.number = number))
        .into()
}

fn malformed(variant: &Variant) -> Vec<Fault<'_>> {
    let mut faults = vec![
        fault(2, |call| call.h.variant = 0),
        fault(2, |call| call.h.variant = 12),
        fault(2, |call| call.h.stage = 2),
        fault(2, |call| call.h.total = BIT_LIMIT as u32 + 1),
        fault(2, |call| {
            let spare = spare_held(variant, call.h.stage, call.h.total);
            let (byte, bit) = spare[0];
            call.h.held[byte] |= bit;
        }),
    ];
    if let Some(&(byte, bit)) = spare_state(variant).first() {
        faults.push(fault(2, move |call| call.h.state[byte] |= bit));
    }
    faults
}

fn already_closed() -> Vec<Fault<'static>> {
    vec![fault(3, close)]
}

fn still_open() -> Vec<Fault<'static>> {
    vec![fault(3, |call| call.h.stage = 0)]
}

/// Numbers that are no bit numbers, one of which has 3 as its low byte, and one
/// that comes with no byte.
fn bad_bit_number() -> Vec<Fault<'static>> {
    let mut faults: Vec<_> = [0, 9, 256 + 3, u32::MAX]
        .map(|bits| fault(15, move |call| call.bits = bits))
        .into();
    faults.push(fault(15, |call| call.message = b""));
    faults
}

/// Running hashes that ended a bit after a byte, a bit before one, and a bit
/// before the limit, when every piece is too long as well.
fn ended_inside(variant: &Variant) -> [Hasher; 3] {
    let mut random = Random::of_test("ended inside");
    [8 * 11 + 1, 8 * 11 + 7, BIT_LIMIT as u32 - 1]
        .map(|total| well_formed(&mut random, variant, 0, total))
}

fn inside_byte(variant: &Variant) -> Vec<Fault<'_>> {
    ended_inside(variant)
        .map(|h| fault(16, move |call| call.h = h))
        .into()
}

/// The same for a piece of no bytes.
fn empty_inside_byte(variant: &Variant) -> Vec<Fault<'_>> {
    let empty = |h| {
        fault(16, move |call| {
            call.h = h;
            call.message = b"";
        })
    };
    ended_inside(variant).map(empty).into()
}

fn too_long() -> Vec<Fault<'static>> {
    vec![fault(4, |call| call.message = &LONG)]
}

/// Segments that make, with two bytes of count and a list of two entries, a
/// message of one byte too many.
fn too_long_together() -> Vec<Fault<'static>> {
    let end = MESSAGE_LIMIT as u32 + 1 - (2 + 16);
    vec![fault(4, move |call| {
        call.message = &LONG;
        call.entries = vec![(0, end), (end, 0)];
    })]
}

/// No output, and one that lacks a byte.
fn too_short(bytes: usize) -> Vec<Fault<'static>> {
    [0, bytes - 1]
        .map(|out| fault(5, move |call| call.out = out))
        .into()
}

fn bad_image(variant: &Variant) -> Vec<Fault<'_>> {
    let bytes = variant.image_bytes();
    let mut faults: Vec<_> = [0, bytes - 1, bytes + 1]
        .map(|wrong| fault(6, move |call| call.image.resize(wrong, 0)))
        .into();
    if !variant.state_bits.is_multiple_of(8) {
        faults.push(fault(6, move |call| call.image[bytes - 1] |= 1));
    }
    faults
}

fn no_such_place(variant: &Variant) -> Vec<Fault<'_>> {
    let count = move |call: &Call| block_count(variant, bits_of(call.message, call.bits));
    vec![
        fault(7, move |call| call.place = count(call)),
        fault(7, |call| call.place = usize::MAX),
    ]
}

/// A permutation is asked of Lesamnta-LW.
fn not_sponge() -> Vec<Fault<'static>> {
    vec![fault(17, |call| call.number = lesamnta_lw().number)]
}

/// The first place of several, and the last but one, if only the last will do.
fn not_last(variant: &Variant) -> Vec<Fault<'_>> {
    if variant.is_sponge() {
        return Vec::new();
    }
    let count = move |call: &Call| block_count(variant, bits_of(call.message, call.bits));
    vec![
        fault(17, |call| call.place = 0),
        fault(17, move |call| call.place = count(call) - 2),
    ]
}

fn no_such_entry() -> Vec<Fault<'static>> {
    vec![
        fault(7, |call| call.entry = call.entries.len()),
        fault(7, |call| call.entry = usize::MAX),
    ]
}

/// Of all states almost none is a block away.
pub fn no_block(variant: &Variant) -> Vec<Fault<'_>> {
    let elsewhere = image(&mut Random::of_test("elsewhere"), variant);
    vec![fault(8, move |call| call.image = elsewhere.clone())]
}

fn bad_list() -> Vec<Fault<'static>> {
    vec![
        fault(9, |call| call.cut = 1),
        fault(9, |call| {
            let last = *call.entries.last().expect("an entry");
            call.entries.resize(513, last);
        }),
    ]
}

fn misordered() -> Vec<Fault<'static>> {
    vec![fault(at(10, 1), |call| {
        call.entries[1].0 = call.entries[0].0 + call.entries[0].1 - 1;
    })]
}

fn past_end() -> Vec<Fault<'static>> {
    vec![fault(at(11, 1), |call| call.entries[1].1 = u32::MAX)]
}

/// A byte too few, one too many, and a record too many.
fn bad_manifest(variant: &Variant) -> Vec<Fault<'_>> {
    vec![
        fault(12, |call| call.manifest.truncate(2 * RECORD_BYTES - 1)),
        fault(12, |call| call.manifest.push(0)),
        fault(12, |call| {
            let after = AXIS + 2..AXIS + RECORD_LIMIT as u16 + 1;
            call.manifest.extend(filled_manifest(variant, after));
        }),
    ]
}

/// In the second record, as in [`not_rising`].
fn bad_record(variant: &Variant) -> Vec<Fault<'_>> {
    let (number, digest) = (RECORD_BYTES + 2, RECORD_BYTES + 3);
    let mut faults: Vec<_> = [0, 12, 255]
        .map(|wrong| fault(13, move |call| call.manifest[number] = wrong))
        .into();
    if variant.digest_bytes() < 32 {
        for place in [variant.digest_bytes(), 31] {
            faults.push(fault(13, move |call| call.manifest[digest + place] = 1));
        }
    }
    faults
}

/// The number of the first record again, the one below it, one whose low byte
/// is above it, and the least.
fn not_rising() -> Vec<Fault<'static>> {
    [AXIS, AXIS - 1, 255, 0]
        .map(|axis| {
            fault(14, move |call| {
                call.manifest[RECORD_BYTES..][..2].copy_from_slice(&axis.to_be_bytes());
            })
        })
        .into()
}

/// The faults of `start`.
pub fn of_start(variant: &Variant) -> Vec<Fault<'_>> {
    unknown_variant(variant)
}

/// The faults of `update`.
pub fn of_update(variant: &Variant) -> Vec<Fault<'_>> {
    row([
        malformed(variant),
        already_closed(),
        empty_inside_byte(variant),
        inside_byte(variant),
        too_long(),
    ])
}

/// The faults of `update_bits`.
pub fn of_update_bits(variant: &Variant) -> Vec<Fault<'_>> {
    row([
        malformed(variant),
        already_closed(),
        bad_bit_number(),
        inside_byte(variant),
        too_long(),
    ])
}

/// The faults of `finish`.
pub fn of_finish(variant: &Variant) -> Vec<Fault<'_>> {
    row([malformed(variant), already_closed()])
}

/// The faults of `digest`, or of `end_state`.
pub fn of_read(variant: &Variant, wanted: u32) -> Vec<Fault<'_>> {
    let short = too_short(result_bytes(variant, wanted));
    row([malformed(variant), still_open(), short])
}

/// The faults of `hash`.
pub fn of_hash(variant: &Variant, wanted: u32) -> Vec<Fault<'_>> {
    let short = too_short(result_bytes(variant, wanted));
    row([unknown_variant(variant), too_long(), short])
}

/// The faults of `hash_bits`.
pub fn of_hash_bits(variant: &Variant, wanted: u32) -> Vec<Fault<'_>> {
    let short = too_short(result_bytes(variant, wanted));
    let unknown = unknown_variant(variant);
    row([unknown, bad_bit_number(), too_long(), short])
}

/// The faults of `permute` and `unpermute`, for a sponge.
pub fn of_permute(variant: &Variant) -> Vec<Fault<'_>> {
    row([unknown_variant(variant), not_sponge(), bad_image(variant)])
}

/// The faults of `recover`.
pub fn of_recover(variant: &Variant) -> Vec<Fault<'_>> {
    row([
        unknown_variant(variant),
        too_long(),
        no_such_place(variant),
        not_last(variant),
        bad_image(variant),
        too_short(block_bytes(variant)),
        no_block(variant),
    ])
}

/// The faults of `recover_bits`.
pub fn of_recover_bits(variant: &Variant) -> Vec<Fault<'_>> {
    row([
        unknown_variant(variant),
        bad_bit_number(),
        too_long(),
        no_such_place(variant),
        not_last(variant),
        bad_image(variant),
        too_short(block_bytes(variant)),
        no_block(variant),
    ])
}

/// The faults of `entry` and `advance`.
pub fn of_entry() -> Vec<Fault<'static>> {
    row([bad_list(), no_such_entry()])
}

/// The faults of `check_entry`.
pub fn of_check_entry() -> Vec<Fault<'static>> {
    row([bad_list(), no_such_entry(), misordered(), past_end()])
}

/// The faults of `hash_list`.
pub fn of_hash_list(variant: &Variant, wanted: u32) -> Vec<Fault<'_>> {
    row([
        unknown_variant(variant),
        bad_list(),
        misordered(),
        past_end(),
        too_long_together(),
        too_short(result_bytes(variant, wanted)),
    ])
}

/// The faults of `check_manifest`.
pub fn of_check_manifest(variant: &Variant) -> Vec<Fault<'_>> {
    row([bad_manifest(variant), bad_record(variant), not_rising()])
}

fn row<'a, const N: usize>(checks: [Vec<Fault<'a>>; N]) -> Vec<Fault<'a>> {
    checks.into_iter().flatten().collect()
}
