//! Inputs for the tests: running hashes, images, segment lists, manifests and
//! tables, sound or damaged in one place.

use std::collections::BTreeMap;
use std::ops::Range;

use wickslate_reference::manifest::RECORD_BYTES;
use wickslate_reference::padding::block_count;
use wickslate_reference::running::{Running, HELD_BYTES};
use wickslate_reference::{digest, Family, Variant, BIT_LIMIT, VARIANTS};

use crate::compare::hasher;
use crate::lent::filled_tail;
use crate::random::Random;
use crate::wickslate::Hasher;

/// Variant numbers that no variant has. The low byte of the last five is that
/// of a variant.
pub const UNKNOWN: [u32; 10] = [
    0,
    12,
    128,
    255,
    u32::MAX,
    0x101,
    0x10b,
    0x1_0005,
    0x100_000a,
    0xffff_ff06,
];

/// Bit numbers that no byte has. The low byte of the last four is that of one
/// that a byte can have.
pub const BAD_BIT_NUMBERS: [u32; 10] = [
    0,
    9,
    16,
    128,
    255,
    u32::MAX,
    256 + 3,
    0x1_0001,
    0x100_0008,
    0xffff_ff07,
];

/// An offset and a length.
pub type Entry = (u32, u32);

/// A running hash as it is before the first start.
pub fn none() -> Hasher {
    filled_tail(Hasher::default())
}

/// Any one of the variants.
pub fn variant(random: &mut Random) -> &'static Variant {
    &VARIANTS[random.below(VARIANTS.len())]
}

/// Any one of those that are sponges.
pub fn sponge(random: &mut Random) -> &'static Variant {
    loop {
        let variant = variant(random);
        if variant.is_sponge() {
            return variant;
        }
    }
}

/// Lesamnta-LW, the one that is no sponge.
pub fn lesamnta_lw() -> &'static Variant {
    &VARIANTS[10]
}

/// The places of a message of `bits` bits at which a block can be found again:
/// all for a sponge, and for Lesamnta-LW the last.
pub fn places(variant: &Variant, bits: usize) -> Range<usize> {
    let count = block_count(variant, bits);
    match variant.is_sponge() {
        true => 0..count,
        false => count - 1..count,
    }
}

/// One of these places.
pub fn place(random: &mut Random, variant: &Variant, bits: usize) -> usize {
    let places = places(variant, bits);
    places.start + random.below(places.len())
}

/// The bytes that hold a block.
pub fn block_bytes(variant: &Variant) -> usize {
    variant.block_bits.div_ceil(8)
}

/// The bytes of a digest, or of an end state's image.
pub fn result_bytes(variant: &Variant, wanted: u32) -> usize {
    match wanted {
        0 => variant.digest_bytes(),
        _ => variant.image_bytes(),
    }
}

/// The number of bits of a message whose last byte contributes `bits` bits.
pub fn bits_of(message: &[u8], bits: u32) -> usize {
    8 * (message.len() - 1) + bits as usize
}

/// The bits that a last byte contributes.
pub fn counting(family: Family, bits: u32) -> u8 {
    match family {
        Family::Photon | Family::LesamntaLw => 0xff << (8 - bits),
        Family::Spongent => 0xff >> (8 - bits),
    }
}

/// Lengths of messages that end a byte before a block does, with it, and a
/// byte after it, for blocks 1 to 9 and some later ones.
pub fn block_edges(variant: &Variant) -> Vec<usize> {
    let ends = [1, 2, 3, 4, 5, 6, 7, 8, 9, 63, 64, 65, 127, 128, 129];
    let end = |blocks: usize| blocks * variant.block_bits / 8;
    ends.iter()
        .flat_map(|&blocks| (end(blocks) - 1)..=(end(blocks) + 2))
        .collect()
}

/// The bits of a byte string from `first` on, as a byte and the bit's value in
/// it, in the order in which the family's images hold bits.
pub fn bits_from(family: Family, first: usize, bytes: usize) -> Vec<(usize, u8)> {
    let weight = |bit: usize| match family {
        Family::Photon | Family::LesamntaLw => 0x80 >> (bit % 8),
        Family::Spongent => 0x01 << (bit % 8),
    };
    (first..8 * bytes)
        .map(|bit| (bit / 8, weight(bit)))
        .collect()
}

/// The held bits of a running hash that must be zero.
pub fn spare_held(variant: &Variant, stage: u8, total: u32) -> Vec<(usize, u8)> {
    let count = match stage {
        0 => total as usize % variant.block_bits,
        _ => 0,
    };
    // Held bits are packed from the high bit in every family.
    bits_from(Family::Photon, count, HELD_BYTES)
}

/// The state bits of a running hash that must be zero.
pub fn spare_state(variant: &Variant) -> Vec<(usize, u8)> {
    bits_from(variant.family, variant.state_bits, 36)
}

fn cleared<const N: usize>(mut bytes: [u8; N], spare: &[(usize, u8)]) -> [u8; N] {
    for &(byte, bit) in spare {
        bytes[byte] &= !bit;
    }
    bytes
}

/// A well-formed running hash with any state and any held bits.
pub fn well_formed(random: &mut Random, variant: &Variant, stage: u8, total: u32) -> Hasher {
    hasher(&Running {
        variant: variant.number as u8,
        stage,
        total,
        state: cleared(random.array(), &spare_state(variant)),
        held: cleared(random.array(), &spare_held(variant, stage, total)),
    })
}

/// A total at either end of the range, or anywhere; in one of two cases it
/// ends with a byte.
pub fn total(random: &mut Random) -> u32 {
    let near = random.below(320);
    let any = random.below(BIT_LIMIT + 1);
    let total = random.pick(&[near, BIT_LIMIT - near, any]) as u32;
    match random.once_in(2) {
        true => total / 8 * 8,
        false => total,
    }
}

/// An image of the variant.
pub fn image(random: &mut Random, variant: &Variant) -> Vec<u8> {
    let state = cleared(random.array::<36>(), &spare_state(variant));
    state[..variant.image_bytes()].to_vec()
}

/// The bytes of a segment list.
pub fn list(entries: &[Entry]) -> Vec<u8> {
    entries
        .iter()
        .flat_map(|(offset, length)| [offset.to_be_bytes(), length.to_be_bytes()])
        .flatten()
        .collect()
}

/// The message over a sound list: the number of entries, the list, and the
/// segments that the entries name.
pub fn list_message(entries: &[Entry], buffer: &[u8]) -> Vec<u8> {
    let count = [(entries.len() >> 8) as u8, entries.len() as u8];
    let segment = |&(offset, length): &Entry| &buffer[offset as usize..(offset + length) as usize];
    let segments = entries.iter().flat_map(segment);
    count
        .into_iter()
        .chain(list(entries))
        .chain(segments.copied())
        .collect()
}

/// Up to `max` entries that name segments of a buffer, in order. Many touch,
/// and some are empty.
pub fn entries(random: &mut Random, max: usize, buffer_bytes: usize) -> Vec<Entry> {
    let mut free = 0;
    let mut entries = Vec::new();
    for _ in 0..random.below(max + 1) {
        let gap = random.pick(&[0, 0, 1, 3]).min(buffer_bytes - free);
        let left = buffer_bytes - free - gap;
        let length = random.pick(&[0, 1, 2, 5, 11]).min(left);
        entries.push(((free + gap) as u32, length as u32));
        free += gap + length;
    }
    entries
}

/// A record of a manifest, with zeros after the digest.
pub fn record(axis: u16, variant: u8, digest: &[u8]) -> Vec<u8> {
    let mut record = [&axis.to_be_bytes()[..], &[variant], digest].concat();
    record.resize(RECORD_BYTES, 0);
    record
}

/// The record of an axis whose table should have these contents.
pub fn record_of(axis: u16, variant: &Variant, contents: &[u8]) -> Vec<u8> {
    let digest = digest(variant.number, contents).expect("a short table");
    record(axis, variant.number as u8, &digest)
}

/// The front of a table in a stream.
pub fn header(axis: u16, bytes: u32) -> Vec<u8> {
    [&axis.to_be_bytes()[..], &bytes.to_be_bytes()].concat()
}

/// A table in a stream.
pub fn table(axis: u16, contents: &[u8]) -> Vec<u8> {
    [&header(axis, contents.len() as u32), contents].concat()
}

/// A manifest of sound records for up to `max` axes, and what their tables
/// should be. Many axes have a number next to that of a different one.
pub fn manifest(random: &mut Random, max: usize) -> (Vec<u8>, Vec<(u16, Vec<u8>)>) {
    let mut tables = BTreeMap::new();
    for _ in 0..random.below(max + 1) {
        let near = random.below(600) as u16;
        let any = u16::from_be_bytes(random.array());
        let axis = random.pick(&[0, 1, 255, 256, 257, 65_535, near, near, any, any]);
        let bytes = random.below(40);
        tables.insert(axis, random.bytes(bytes));
    }
    let mut list = Vec::new();
    for (&axis, contents) in &tables {
        list.extend(record_of(axis, variant(random), contents));
    }
    (list, tables.into_iter().collect())
}

/// A manifest of the axes in a range, with digests that have all bits set.
pub fn filled_manifest(variant: &Variant, axes: Range<u16>) -> Vec<u8> {
    let digest = vec![0xff; variant.digest_bytes()];
    axes.flat_map(|axis| record(axis, variant.number as u8, &digest))
        .collect()
}
