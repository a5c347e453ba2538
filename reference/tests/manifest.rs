//! Manifests and reports, with counts worked out by hand. The tables are
//! messages of Annex B, whose digests are typed from the standard.

mod hexadecimal;

use std::collections::BTreeMap;
use std::io::{self, Read};

use hexadecimal::bytes;
use wickslate_reference::manifest::{check, held, list_of, report, Counts, Record};
use wickslate_reference::VARIANTS;

const PHOTON: &[u8] = b"The PHOTON Lightweight Hash Functions Family";
const PHOTON_100: &str = "07D1723459751E368532";
const PHOTON_144: &str = "A1AA703C545E0C2DC1AEEC32AF3CB3E3";

const SPONGENT: &[u8] = b"Sponge + Present = Spongent";
const SPONGENT_88: &str = "69971BF96DEF95BFC46822";

const LESAMNTA: &[u8] = b"abc";
const LESAMNTA_LW: &str = "AB32CA451748255E3BF0E34A5AD600F0CE7660ECEA2FE083BA54139B770766D0";

/// A record, with zeros behind its digest.
fn record(axis: u16, variant: u8, digest: &str) -> Vec<u8> {
    let mut record = [&axis.to_be_bytes()[..], &[variant], &bytes(digest)].concat();
    record.resize(35, 0);
    record
}

/// The front of a table.
fn header(axis: u16, length: u32) -> Vec<u8> {
    [&axis.to_be_bytes()[..], &length.to_be_bytes()].concat()
}

fn table(axis: u16, contents: &[u8]) -> Vec<u8> {
    [&header(axis, contents.len() as u32), contents].concat()
}

/// The counts in the order of their lines.
fn counts(list: &[u8], stream: impl Read) -> [usize; 6] {
    let counts = report(list, stream).expect("a sound stream");
    let Counts {
        listed,
        tables,
        equal,
        unequal,
        untold,
        unlisted,
    } = counts.expect("a sound list");
    [listed, tables, equal, unequal, untold, unlisted]
}

/// Axis 0 by PHOTON-144, axis 7 by PHOTON-100 and axis 258 by SPONGENT-88.
fn three() -> Vec<u8> {
    [
        record(0, 2, PHOTON_144),
        record(7, 1, PHOTON_100),
        record(258, 6, SPONGENT_88),
    ]
    .concat()
}

/// Records of these axes, in this order.
fn of_axes(axes: impl IntoIterator<Item = u16>) -> Vec<u8> {
    let sound = |axis| record(axis, 1, PHOTON_100);
    axes.into_iter().flat_map(sound).collect()
}

#[test]
fn lists_in_whole_records_pass() {
    let many = of_axes(0..514);
    for length in 0..=many.len() {
        let whole = length % 35 == 0 && length <= 17_920;
        let expected = if whole { Ok(()) } else { Err(12) };
        assert_eq!(check(&many[..length]), expected, "{length} bytes");
    }
}

#[test]
fn every_variant_byte() {
    for variant in 0..=255 {
        let known = (1..=11).contains(&variant);
        let expected = if known { Ok(()) } else { Err(13) };
        assert_eq!(check(&record(7, variant, "")), expected, "{variant}");
    }
}

#[test]
fn every_byte_behind_a_digest() {
    for variant in &VARIANTS {
        for place in 0..32 {
            let mut list = record(7, variant.number as u8, "");
            list[3 + place] = 1;
            let filler = place >= variant.digest_bytes();
            let expected = if filler { Err(13) } else { Ok(()) };
            assert_eq!(check(&list), expected, "{} {place}", variant.name);
        }
    }
}

/// A list that is too short by a byte, or has a record too many, and in which
/// every record is wrong too, or none rises.
#[test]
fn whole_records_come_first() {
    for (record, refusal) in [(record(7, 12, ""), 13), (record(7, 1, ""), 14)] {
        let wrong = record.repeat(513);
        assert_eq!(check(&wrong), Err(12));
        assert_eq!(check(&wrong[..17_919]), Err(12));
        assert_eq!(check(&wrong[..17_920]), Err(refusal));
    }
}

/// By the whole number, of which the first byte weighs more, and up to the
/// greatest.
#[test]
fn axis_numbers_rise() {
    for (low, high) in [
        (0, 1),
        (6, 7),
        (7, 258),
        (258, 513),
        (0x00ff, 0x0100),
        (0x01ff, 0x0200),
        (0x7fff, 0x8000),
        (0, 65_535),
        (65_534, 65_535),
    ] {
        assert_eq!(check(&of_axes([low, high])), Ok(()), "{low} {high}");
        assert_eq!(check(&of_axes([high, low])), Err(14), "{high} {low}");
        assert_eq!(check(&of_axes([low, low])), Err(14), "{low} twice");
        assert_eq!(check(&of_axes([high, high])), Err(14), "{high} twice");
    }
}

/// Nothing stands before the first record, so that 0 will do there.
#[test]
fn any_axis_can_be_the_first() {
    for axis in [0, 1, 255, 256, 65_535] {
        assert_eq!(check(&of_axes([axis])), Ok(()), "{axis}");
    }
}

/// Each is held against the one before it, wherever it stands.
#[test]
fn every_record_rises() {
    for axes in [[3, 1, 2], [1, 3, 2], [2, 1, 3], [1, 2, 2], [1, 2, 1]] {
        assert_eq!(check(&of_axes(axes)), Err(14), "{axes:?}");
    }
    let longest: Vec<u16> = (0..512).map(|k| 3 * k).collect();
    assert_eq!(check(&of_axes(longest.clone())), Ok(()));
    for k in 1..512 {
        let mut axes = longest.clone();
        axes[k] = axes[k - 1];
        assert_eq!(check(&of_axes(axes)), Err(14), "record {k}");
    }
}

/// What is wrong with a record is told before what is wrong with a later one,
/// and its variant and filler before its axis number.
#[test]
fn records_are_looked_at_in_turn() {
    let sound = |axis| record(axis, 1, PHOTON_100);
    for wrong in [
        |axis| record(axis, 0, ""),
        |axis| record(axis, 1, &"FF".repeat(11)),
    ] {
        for (records, refusal) in [
            (vec![sound(7), wrong(7)], 13),
            (vec![sound(7), wrong(6)], 13),
            (vec![wrong(7), sound(7)], 13),
            (vec![wrong(7), sound(8), sound(8)], 13),
            (vec![sound(7), sound(7), wrong(8)], 14),
            (vec![sound(7), sound(6), wrong(5)], 14),
            (vec![sound(7), wrong(8), sound(8), wrong(9)], 13),
        ] {
            let list = records.concat();
            assert_eq!(check(&list), Err(refusal));
            // The stream is not even looked at.
            let refused = report(&list, Broken).expect("no stream is read");
            assert_eq!(refused, Err(refusal));
        }
    }
}

/// The axes of [`three`], put in from the last to the first.
fn installation() -> BTreeMap<u16, Record> {
    let axis = |axis, number: usize, digest| {
        let variant = &VARIANTS[number - 1];
        let digest = bytes(digest);
        (axis, Record { variant, digest })
    };
    BTreeMap::from([
        axis(258, 6, SPONGENT_88),
        axis(7, 1, PHOTON_100),
        axis(0, 2, PHOTON_144),
    ])
}

#[test]
fn one_list_for_one_installation() {
    assert_eq!(list_of(&installation()), three());
    assert_eq!(held(&three()), Ok(installation()));
    assert_eq!(list_of(&BTreeMap::new()), b"");
    assert_eq!(held(b""), Ok(BTreeMap::new()));
    let rising = three();
    let record = |k: usize| &rising[35 * k..35 * (k + 1)];
    for order in [[0, 2, 1], [1, 0, 2], [1, 2, 0], [2, 0, 1], [2, 1, 0]] {
        assert_eq!(held(&order.map(record).concat()), Err(14), "{order:?}");
    }
}

/// No axis is left out, and 513 are too many.
#[test]
fn installations_of_many_axes() {
    for variant in &VARIANTS {
        let digest = vec![0xff; variant.digest_bytes()];
        let mut axes = BTreeMap::new();
        for axis in (0..512).map(|k| 128 * k + 127) {
            let digest = digest.clone();
            axes.insert(axis, Record { variant, digest });
        }
        let list = list_of(&axes);
        assert_eq!(list.len(), 17_920);
        assert_eq!(held(&list), Ok(axes.clone()), "{}", variant.name);
        axes.insert(0, Record { variant, digest });
        assert_eq!(held(&list_of(&axes)), Err(12), "{}", variant.name);
    }
}

#[test]
fn no_list_and_no_stream() {
    assert_eq!(counts(b"", &b""[..]), [0, 0, 0, 0, 0, 0]);
    assert_eq!(counts(b"", &table(0, b"")[..]), [0, 1, 0, 0, 0, 1]);
    assert_eq!(counts(&three(), &b""[..]), [3, 0, 0, 0, 3, 0]);
}

#[test]
fn tables_are_told_apart() {
    let stream = [
        table(7, PHOTON),
        table(258, SPONGENT),
        table(0, SPONGENT), // not the one of the record
        table(1, PHOTON),   // of no axis
        table(513, b""),    // of none either: 258 with its bytes the other way round
        table(7, b""),      // a second one
    ]
    .concat();
    assert_eq!(counts(&three(), &stream[..]), [3, 6, 2, 2, 0, 2]);
}

/// An axis of which two tables came is told once.
#[test]
fn a_table_that_comes_twice() {
    let twice = table(258, SPONGENT).repeat(2);
    assert_eq!(counts(&three(), &twice[..]), [3, 2, 2, 0, 2, 0]);
}

/// A digest that fills its record.
#[test]
fn tables_by_lesamnta_lw() {
    let list = [three(), record(600, 11, LESAMNTA_LW)].concat();
    let stream = [table(600, LESAMNTA), table(600, b""), table(7, PHOTON)].concat();
    assert_eq!(counts(&list, &stream[..]), [4, 3, 2, 1, 2, 0]);
}

/// The right digest under another variant of equally many bytes.
#[test]
fn the_variant_is_the_records() {
    let list = record(7, 7, PHOTON_144);
    assert_eq!(counts(&list, &table(7, PHOTON)[..]), [1, 1, 0, 1, 0, 0]);
}

/// Two tables, the second of 27 bytes: it counts with its last byte.
#[test]
fn a_stream_cut_anywhere() {
    let stream = [table(1, b"12"), table(258, SPONGENT)].concat();
    assert_eq!(stream.len(), 8 + 33);
    for cut in 0..=stream.len() {
        let expected = match cut {
            0..8 => [3, 0, 0, 0, 3, 0],
            8..41 => [3, 1, 0, 0, 3, 1],
            _ => [3, 2, 1, 0, 2, 1],
        };
        assert_eq!(counts(&three(), &stream[..cut]), expected, "{cut} bytes");
    }
}

/// So many zeros.
fn zeros(bytes: u64) -> impl Read {
    io::repeat(0).take(bytes)
}

/// One byte past the limit, and a table behind it.
#[test]
fn a_table_past_the_limit() {
    for (axis, expected) in [(258, [3, 2, 1, 1, 1, 0]), (9, [3, 2, 1, 0, 2, 1])] {
        let (front, behind) = (header(axis, 16_777_216), table(7, PHOTON));
        let stream = front.chain(zeros(16_777_216)).chain(&behind[..]);
        assert_eq!(counts(&three(), stream), expected);
        let cut = front.chain(zeros(16_777_215));
        assert_eq!(counts(&three(), cut), [3, 0, 0, 0, 3, 0]);
    }
}

/// The greatest length, of which only a little comes.
#[test]
fn the_greatest_length() {
    for axis in [7, 8] {
        let stream = [table(258, SPONGENT), header(axis, u32::MAX)].concat();
        let stream = stream.chain(zeros(100_000));
        assert_eq!(counts(&three(), stream), [3, 1, 1, 0, 2, 0]);
    }
}

/// A reader that fails.
struct Broken;

impl Read for Broken {
    fn read(&mut self, _: &mut [u8]) -> io::Result<usize> {
        Err(io::Error::other("broken"))
    }
}

/// Behind the last table nothing is read, not even to see whether more comes.
#[test]
fn as_many_tables_as_are_looked_at() {
    let last = [3, 65_535, 1, 0, 2, 65_534];
    let stream = [header(9, 0).repeat(65_534), table(258, SPONGENT)].concat();
    assert_eq!(counts(&three(), &stream[..]), last);
    assert_eq!(counts(&three(), stream.chain(Broken)), last);
    let more = [&stream[..], &table(7, PHOTON)].concat();
    assert_eq!(counts(&three(), &more[..]), last);
    let fewer = &stream[..stream.len() - 1];
    assert_eq!(counts(&three(), fewer), [3, 65_534, 0, 0, 3, 65_534]);
}

/// In the header, in a table that is hashed, and in one that is not.
#[test]
fn a_stream_that_cannot_be_read() {
    for front in [
        Vec::new(),
        header(7, 5),
        header(9, 5),
        header(7, u32::MAX),
        b"\0".to_vec(),
    ] {
        assert!(report(&three(), front.chain(Broken)).is_err());
    }
}

/// A reader that gives one byte at a time.
struct Slow<'a>(&'a [u8]);

impl Read for Slow<'_> {
    fn read(&mut self, out: &mut [u8]) -> io::Result<usize> {
        let bytes = out.len().min(1);
        self.0.read(&mut out[..bytes])
    }
}

#[test]
fn one_byte_at_a_time() {
    let stream = [table(7, PHOTON), table(1, PHOTON), table(258, SPONGENT)].concat();
    assert_eq!(counts(&three(), Slow(&stream)), [3, 3, 2, 0, 1, 1]);
}

#[test]
fn six_lines() {
    let stream = [table(7, PHOTON), table(1, b""), table(7, b"")].concat();
    let counts = report(&three(), &stream[..]).expect("a sound stream");
    assert_eq!(
        counts.expect("a sound list").to_string(),
        "listed 3\ntables 3\nequal 1\nunequal 1\nuntold 2\nunlisted 1\n"
    );
}
