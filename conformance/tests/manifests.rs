//! Manifests: sound and damaged ones, the refusals 12, 13 and 14 alone and
//! together, and that an installation has one list.

use std::collections::BTreeMap;

use wickslate_conformance::compare::check_manifest;
use wickslate_conformance::make::{filled_manifest, manifest, record, variant};
use wickslate_conformance::random::Random;
use wickslate_conformance::settings::amount;
use wickslate_reference::manifest::{held, list_of, Record};
use wickslate_reference::VARIANTS;

/// As many records as can be.
const MAX_BYTES: usize = 17_920;

/// Sound records of these axes, in this order. Behind the digest there is room
/// for a wrong byte.
fn of_axes(axes: impl IntoIterator<Item = u16>) -> Vec<u8> {
    let sound = |axis| record(axis, 6, b"");
    axes.into_iter().flat_map(sound).collect()
}

/// The axis of record `k` if numbers between two are left free.
fn spaced(k: usize) -> u16 {
    3 * k as u16 + 1
}

fn put_axis(list: &mut [u8], k: usize, axis: u16) {
    list[35 * k..][..2].copy_from_slice(&axis.to_be_bytes());
}

/// Each is also the only list of what it holds.
#[test]
fn sound_manifests() {
    let mut random = Random::of_test("sound_manifests");
    for _ in 0..amount(300, 20) {
        let (list, _) = manifest(&mut random, 20);
        assert_eq!(check_manifest(&list), 0);
        assert_eq!(held(&list).map(|records| list_of(&records)), Ok(list));
    }
}

/// A sound one with a byte changed, its end lost or its first record after the
/// others, or any bytes instead.
#[test]
fn damaged_manifests() {
    let mut random = Random::of_test("damaged_manifests");
    let mut seen = [0; 15];
    for _ in 0..amount(2000, 500) {
        let (mut list, _) = manifest(&mut random, 6);
        let place = random.below(list.len() + 1);
        match random.below(8) {
            0 => list.truncate(place),
            1 => {
                let bytes = 35 * random.below(4);
                list = random.bytes(bytes);
            }
            2 if !list.is_empty() => list.rotate_left(35),
            _ if place < list.len() => list[place] = random.array::<1>()[0],
            _ => {}
        }
        seen[check_manifest(&list) as usize] += 1;
    }
    for answer in [0, 12, 13, 14] {
        assert!(seen[answer] > 0, "answer {answer} did not come up");
    }
}

/// Whole records or not, sound or not: 13 and 14 come only if 12 does not.
#[test]
fn whole_records_come_before_each_record() {
    let full = [0xff; 10];
    let firsts = [(record(7, 1, &full), 0), (record(7, 12, b""), 13)];
    let seconds = [
        (record(8, 1, &full), 0),
        (record(8, 12, b""), 13),
        (record(7, 12, b""), 13),
        (record(7, 1, &full), 14),
        (record(6, 1, &full), 14),
    ];
    for (first, of_first) in &firsts {
        for (second, of_second) in &seconds {
            let list = [&first[..], second, first].concat();
            for bytes in 0..=71 {
                let expected = match bytes {
                    0 => 0,
                    70 if *of_first == 0 => *of_second,
                    35 | 70 => *of_first,
                    _ => 12,
                };
                assert_eq!(check_manifest(&list[..bytes]), expected, "{bytes} bytes");
            }
        }
    }
}

#[test]
fn the_longest_manifest() {
    let wrong = (0..1024).flat_map(|axis| record(axis, 12, b""));
    for (long, refusal) in [
        (of_axes(64_512..=65_535), 0),
        (wrong.collect(), 13),
        (of_axes([65_535; 1024]), 14),
        (of_axes((0..1024).rev()), 14),
    ] {
        for (bytes, expected) in [
            (MAX_BYTES - 35, refusal),
            (MAX_BYTES - 1, 12),
            (MAX_BYTES, refusal),
            (MAX_BYTES + 1, 12),
            (MAX_BYTES + 34, 12),
            (MAX_BYTES + 35, 12),
            (2 * MAX_BYTES, 12),
        ] {
            assert_eq!(check_manifest(&long[..bytes]), expected, "{bytes} bytes");
        }
    }
}

/// Each record of the longest one in turn.
#[test]
fn every_record_is_looked_at() {
    let sound = filled_manifest(&VARIANTS[6], 0..512);
    assert_eq!(check_manifest(&sound), 0);
    for k in 0..512 {
        for (place, byte) in [(2, 0), (3 + 16, 1), (34, 0x80)] {
            let mut list = sound.clone();
            list[35 * k + place] = byte;
            assert_eq!(check_manifest(&list), 13, "record {k}");
        }
    }
}

/// Each record of the longest one in turn, with the numbers next to its
/// neighbours' on either side.
#[test]
fn every_record_rises() {
    let sound = of_axes((0..512).map(spaced));
    let with_axis = |k, axis| {
        let mut list = sound.clone();
        put_axis(&mut list, k, axis);
        check_manifest(&list)
    };
    assert_eq!(check_manifest(&sound), 0);
    assert_eq!(with_axis(0, 0), 0, "nothing stands before the first");
    assert_eq!(with_axis(511, 65_535), 0, "nor after the last");
    for k in (1..512).step_by(amount(1, 7)) {
        let (before, here) = (spaced(k - 1), spaced(k));
        for axis in [before, before - 1, 0] {
            assert_eq!(with_axis(k, axis), 14, "record {k}: {axis}");
        }
        for axis in [here, here + 1, 65_535] {
            assert_eq!(with_axis(k - 1, axis), 14, "record {}: {axis}", k - 1);
        }
        assert_eq!(with_axis(k, before + 1), 0, "record {k}");
        assert_eq!(with_axis(k - 1, here - 1), 0, "record {}", k - 1);
    }
}

/// A wrong record and one that does not rise: the earlier one is told, and 13
/// if they are the same one.
fn expect_earlier(count: usize, places: &[usize]) {
    let sound = of_axes((0..count).map(spaced));
    for &wrong in places {
        for &falling in places.iter().filter(|&&k| k > 0) {
            let before = spaced(falling - 1);
            for ((place, byte), axis) in [
                ((2, 0), before),
                ((2, 12), before - 1),
                ((3 + 11, 1), before),
                ((34, 0x80), 0),
            ] {
                let mut list = sound.clone();
                put_axis(&mut list, falling, axis);
                assert_eq!(check_manifest(&list), 14);
                list[35 * wrong + place] = byte;
                let expected = if wrong <= falling { 13 } else { 14 };
                let given = check_manifest(&list);
                assert_eq!(given, expected, "13 in {wrong}, 14 in {falling}");
            }
        }
    }
}

#[test]
fn records_are_looked_at_in_turn() {
    for count in 1..=7 {
        let places: Vec<usize> = (0..count).collect();
        expect_earlier(count, &places);
    }
    expect_earlier(512, &[0, 1, 2, 255, 256, 257, 510, 511]);
}

#[test]
fn every_variant_byte() {
    for byte in 0..=255 {
        let known = (1..=11).contains(&byte);
        let list = record(0x0b0b, byte, b"");
        assert_eq!(check_manifest(&list), if known { 0 } else { 13 }, "{byte}");
    }
}

/// Each byte after the axis number, with each bit of it.
#[test]
fn every_byte_of_digest_and_filler() {
    for variant in &VARIANTS {
        let filled = vec![0xff; variant.digest_bytes()];
        for digest in [&filled[..], b""] {
            for place in 0..32 {
                for bit in 0..8 {
                    let mut list = record(7, variant.number as u8, digest);
                    list[3 + place] ^= 1 << bit;
                    let filler = place >= variant.digest_bytes();
                    let expected = if filler { 13 } else { 0 };
                    assert_eq!(check_manifest(&list), expected, "{}", variant.name);
                }
            }
        }
    }
}

/// Each number between the two beside it, so that it also comes first and last;
/// and all of them in long lists.
#[test]
fn every_axis_number() {
    for axis in (1..65_535).step_by(amount(1, 61)) {
        let (before, after) = (axis - 1, axis + 1);
        assert_eq!(check_manifest(&of_axes([before, axis, after])), 0);
        for wrong in [[axis, axis], [axis, before], [after, axis]] {
            assert_eq!(check_manifest(&of_axes(wrong)), 14, "{wrong:?}");
        }
    }
    for first in (0..=65_535).step_by(512) {
        let list = of_axes(first..=first + 511);
        assert_eq!(check_manifest(&list), 0, "from {first}");
    }
}

/// The high byte counts before the low one, and neither has a sign.
#[test]
fn both_bytes_of_an_axis_number() {
    let bytes = [0, 1, 2, 127, 128, 254, 255];
    let axes = bytes.map(|high| bytes.map(|low| u16::from_be_bytes([high, low])));
    let axes = axes.concat();
    for &first in &axes {
        for &second in &axes {
            let expected = if first < second { 0 } else { 14 };
            let given = check_manifest(&of_axes([first, second]));
            assert_eq!(given, expected, "{first} {second}");
        }
    }
}

/// Every row of four out of four records, in all their orders and with records
/// that come again: only the one that rises passes.
#[test]
fn rows_of_four_records() {
    let records = [(0, 10), (255, 1), (256, 6), (65_535, 4)]
        .map(|(axis, variant)| record(axis, variant, &[0xff; 10]));
    for row in 0..256 {
        let places = [row >> 6, row >> 4 & 3, row >> 2 & 3, row & 3];
        let list = places.map(|k| &records[k][..]).concat();
        let expected = if places == [0, 1, 2, 3] { 0 } else { 14 };
        assert_eq!(check_manifest(&list), expected, "{places:?}");
    }
}

/// A second record of an axis, the same or a different one, put in anywhere.
#[test]
fn an_axis_comes_once() {
    let sound = of_axes((0..20).map(spaced));
    for axis in (0..20).map(spaced) {
        for second in [record(axis, 6, b""), record(axis, 11, &[0xff; 32])] {
            for place in (0..=sound.len()).step_by(35) {
                let mut list = sound.clone();
                list.splice(place..place, second.clone());
                assert_eq!(check_manifest(&list), 14, "axis {axis} at {place}");
            }
        }
    }
}

/// Up to `max` axes, with any digests.
fn installation(random: &mut Random, max: usize) -> BTreeMap<u16, Record> {
    let mut axes = BTreeMap::new();
    for _ in 0..random.below(max + 1) {
        let axis = u16::from_be_bytes(random.array());
        let variant = variant(random);
        let digest = random.bytes(variant.digest_bytes());
        axes.insert(axis, Record { variant, digest });
    }
    axes
}

/// The records of a list in any order.
fn shuffled(random: &mut Random, list: &[u8]) -> Vec<u8> {
    let mut records: Vec<&[u8]> = list.chunks(35).collect();
    for k in 1..records.len() {
        records.swap(k, random.below(k + 1));
    }
    records.concat()
}

/// The list that is made from the axes passes and holds them; with its records
/// in a different order it does not pass.
#[test]
fn one_list_for_one_installation() {
    let mut random = Random::of_test("one_list_for_one_installation");
    for _ in 0..amount(300, 30) {
        let max = random.pick(&[2, 5, 40, 512]);
        let axes = installation(&mut random, max);
        let list = list_of(&axes);
        assert_eq!(check_manifest(&list), 0);
        assert_eq!(held(&list), Ok(axes));
        for _ in 0..4 {
            let other = shuffled(&mut random, &list);
            let expected = if other == list { 0 } else { 14 };
            assert_eq!(check_manifest(&other), expected);
        }
    }
}
