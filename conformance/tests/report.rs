//! The program `report` and the script around it, run as a user runs them, and
//! held against the Rust version.

#[path = "../../reference/tests/hexadecimal/mod.rs"]
mod hexadecimal;

use std::fs::{self, File};
use std::io::Write;
use std::net::Shutdown;
use std::os::fd::OwnedFd;
use std::os::unix::fs::{symlink, MetadataExt, PermissionsExt};
use std::os::unix::net::UnixDatagram;
use std::path::{Path, PathBuf};
use std::process::{Child, Command, Output, Stdio};
use std::sync::Once;
use std::thread;
use std::time::{Duration, Instant};

use hexadecimal::bytes;
use wickslate_conformance::make::{header, manifest, record, record_of, table};
use wickslate_conformance::programs::{self, expect, fed, peak, root, started};
use wickslate_conformance::random::Random;
use wickslate_conformance::settings::{self, amount};
use wickslate_reference::manifest::{report, Counts};
use wickslate_reference::{digest, Variant, MESSAGE_LIMIT, VARIANTS};

/// The sponge that takes the least time for a byte.
const FAST: &Variant = &VARIANTS[4];

const UNREADABLE: &str = "report: standard input cannot be read\n";

/// A folder of this test's own, with nothing in it.
fn folder(name: &str) -> PathBuf {
    let path = Path::new(env!("CARGO_TARGET_TMPDIR")).join(name);
    if path.exists() {
        fs::remove_dir_all(&path).expect("a folder to remove");
    }
    fs::create_dir(&path).expect("a folder to make");
    path
}

/// A folder of this test's own with a manifest.
struct Place(PathBuf);

impl Place {
    fn of_test(name: &str) -> Place {
        Place(folder(name))
    }

    /// The program in this folder, with this manifest.
    fn program(&self, list: &[u8]) -> Command {
        fs::write(self.0.join("rig"), list).expect("a file to write");
        self.bare()
    }

    /// The program in this folder, as it is.
    fn bare(&self) -> Command {
        let mut program = programs::program("report");
        program.current_dir(&self.0);
        program
    }

    /// What the program prints.
    fn printed(&self, list: &[u8], pieces: Vec<Vec<u8>>) -> String {
        let output = fed(self.program(list), pieces);
        let out = String::from_utf8_lossy(&output.stdout).into_owned();
        expect(&output, 0, &out, "");
        out
    }

    /// Expects what the Rust version gives.
    fn expect_same(&self, list: &[u8], stream: &[u8]) -> String {
        let expected = lines(list, stream);
        let printed = self.printed(list, vec![stream.to_vec()]);
        assert_eq!(printed, expected, "list {list:x?} stream {stream:x?}");
        expected
    }
}

/// What the Rust version prints.
fn lines(list: &[u8], stream: &[u8]) -> String {
    match report(list, stream).expect("a slice") {
        Ok(counts) => counts.to_string(),
        Err(refusal) => format!("refused {refusal}\n"),
    }
}

/// The lines of these counts, in their order.
fn counted(counts: [usize; 6]) -> String {
    let [listed, tables, equal, unequal, untold, unlisted] = counts;
    let counts = Counts {
        listed,
        tables,
        equal,
        unequal,
        untold,
        unlisted,
    };
    counts.to_string()
}

const HOLD: &[u8] = b"Bar 7 hold.";
const LIFT: &[u8] = b"Bar 14, 6.20 m, 0.4 m/s";

/// Axes 0, 7 and 258, each by a different variant. The first table has no bytes.
fn three() -> Vec<u8> {
    [
        record_of(0, FAST, b""),
        record_of(7, &VARIANTS[0], HOLD),
        record_of(258, &VARIANTS[5], LIFT),
    ]
    .concat()
}

/// A manifest of each kind that is refused, with the line that tells it.
fn refused() -> [(Vec<u8>, &'static str); 3] {
    [
        (vec![1; 34], "refused 12\n"),
        (record(7, 12, b""), "refused 13\n"),
        (record(7, 1, b"").repeat(2), "refused 14\n"),
    ]
}

#[test]
fn six_lines() {
    let place = Place::of_test("six lines");
    let stream = [table(7, HOLD), table(9, LIFT), table(258, HOLD)].concat();
    let lines = "listed 3\ntables 3\nequal 1\nunequal 1\nuntold 1\nunlisted 1\n";
    assert_eq!(place.expect_same(&three(), &stream), lines);
    assert_eq!(place.printed(&three(), vec![stream]), lines);
}

#[test]
fn no_list_and_no_stream() {
    let place = Place::of_test("no list and no stream");
    for list in [Vec::new(), three()] {
        for stream in [Vec::new(), table(0, b""), table(9, HOLD)] {
            place.expect_same(&list, &stream);
        }
        let output = place.program(&list).stdin(Stdio::null()).output();
        expect(&output.expect("an end"), 0, &lines(&list, b""), "");
    }
}

/// Every variant, with its own table and one whose last bit is different.
#[test]
fn every_variant() {
    let place = Place::of_test("every variant");
    let mut list = Vec::new();
    let mut stream = Vec::new();
    for variant in &VARIANTS {
        let (axis, mut contents) = (variant.number as u16, LIFT.to_vec());
        list.extend(record_of(axis, variant, &contents));
        stream.extend(table(axis, &contents));
        *contents.last_mut().expect("not empty") ^= 1;
        stream.extend(table(axis, &contents));
    }
    let lines = place.expect_same(&list, &stream);
    assert_eq!(lines, counted([11, 22, 11, 11, 0, 0]));
}

/// Tables of the axes that are listed, and of others, in any order; some are
/// not what they should be.
fn stream(random: &mut Random, tables: &[(u16, Vec<u8>)]) -> Vec<u8> {
    let mut stream = Vec::new();
    for _ in 0..random.below(12) {
        let near = u16::from(random.array::<1>()[0]);
        let (axis, mut contents) = match random.below(tables.len() + 2) {
            k if k < tables.len() => tables[k].clone(),
            _ => (near, random.bytes(3)),
        };
        if random.once_in(3) && !contents.is_empty() {
            let place = random.below(contents.len());
            contents[place] ^= 1 << random.below(8);
        }
        stream.extend(table(axis, &contents));
    }
    stream
}

/// Changes a bit, or cuts the end off.
fn damage(random: &mut Random, bytes: &mut Vec<u8>) {
    if bytes.is_empty() {
        return;
    }
    let place = random.below(bytes.len());
    match random.once_in(2) {
        true => bytes[place] ^= 1 << random.below(8),
        false => bytes.truncate(place),
    }
}

#[test]
fn sound_lists_and_streams() {
    let place = Place::of_test("sound lists and streams");
    let mut random = Random::of_test("sound_lists_and_streams");
    let mut all = [0; 6];
    for _ in 0..amount(120, 10) {
        let (list, tables) = manifest(&mut random, 12);
        let stream = stream(&mut random, &tables);
        place.expect_same(&list, &stream);
        let counts = report(&list, &stream[..]).expect("a slice");
        let counts = counts.expect("a sound list");
        let whole = counts.equal + counts.unequal + counts.unlisted;
        assert_eq!(counts.tables, whole);
        for (all, one) in all.iter_mut().zip([
            counts.listed,
            counts.tables,
            counts.equal,
            counts.unequal,
            counts.untold,
            counts.unlisted,
        ]) {
            *all += one;
        }
    }
    assert!(!all.contains(&0), "a count was never above 0: {all:?}");
}

#[test]
fn damaged_lists_and_streams() {
    let place = Place::of_test("damaged lists and streams");
    let mut random = Random::of_test("damaged_lists_and_streams");
    let mut seen = [0; 4];
    for _ in 0..amount(300, 60) {
        let (mut list, tables) = manifest(&mut random, 5);
        let mut stream = stream(&mut random, &tables);
        match random.below(5) {
            0 => damage(&mut random, &mut list),
            1 => damage(&mut random, &mut stream),
            2 if !list.is_empty() => list.rotate_left(35),
            // Filler, for most variants.
            3 if !list.is_empty() => *list.last_mut().expect("a byte") ^= 1,
            _ => {
                let bytes = random.below(300);
                stream = random.bytes(bytes);
            }
        }
        match place.expect_same(&list, &stream).as_str() {
            "refused 12\n" => seen[0] += 1,
            "refused 13\n" => seen[1] += 1,
            "refused 14\n" => seen[2] += 1,
            _ => seen[3] += 1,
        }
    }
    assert!(!seen.contains(&0), "an answer did not come up: {seen:?}");
}

/// Also within the header of a table, and with an axis that is told only by a
/// table that is cut short.
#[test]
fn a_stream_cut_at_every_byte() {
    let place = Place::of_test("a stream cut at every byte");
    let stream = [
        table(258, LIFT),
        table(9, b"12"),
        table(0, b""),
        table(7, HOLD),
    ]
    .concat();
    assert_eq!(stream.len(), 29 + 8 + 6 + 17);
    for cut in 0..=stream.len() {
        let lines = place.expect_same(&three(), &stream[..cut]);
        let expected = match cut {
            0..29 => [3, 0, 0, 0, 3, 0],
            29..37 => [3, 1, 1, 0, 2, 0],
            37..43 => [3, 2, 1, 0, 2, 1],
            43..60 => [3, 3, 2, 0, 1, 1],
            _ => [3, 4, 3, 0, 0, 1],
        };
        assert_eq!(lines, counted(expected), "{cut} bytes");
    }
}

/// Whole records or none, and what a third record is refused for.
#[test]
fn lists_of_every_length() {
    let place = Place::of_test("lists of every length");
    let [first, second, wrong, again] = [
        record_of(7, FAST, HOLD),
        record_of(8, FAST, HOLD),
        record(9, 12, b""),
        record(8, 12, b""),
    ];
    let list = [&first[..], &second, &wrong].concat();
    for bytes in 0..=list.len() {
        let lines = place.expect_same(&list[..bytes], &table(7, HOLD));
        let expected = match bytes {
            0 => counted([0, 1, 0, 0, 0, 1]),
            35 => counted([1, 1, 1, 0, 0, 0]),
            70 => counted([2, 1, 1, 0, 1, 0]),
            105 => String::from("refused 13\n"),
            _ => String::from("refused 12\n"),
        };
        assert_eq!(lines, expected, "{bytes} bytes");
    }
    for (third, refusal) in [(again, "refused 13\n"), (second.clone(), "refused 14\n")] {
        let list = [&first[..], &second, &third].concat();
        assert_eq!(place.expect_same(&list, b""), refusal);
    }
}

#[test]
fn as_many_records_as_can_be() {
    let place = Place::of_test("as many records as can be");
    let records = |count: u16| -> Vec<u8> {
        let record = |axis: u16| record(axis, 1 + (axis % 11) as u8, b"");
        (0..count).flat_map(record).collect()
    };
    let last = table(511, b"");
    for count in [511, 512, 513, 514, 1024, 2048] {
        let lines = place.expect_same(&records(count), &last);
        let expected = match count {
            511 => counted([511, 1, 0, 0, 511, 1]),
            512 => counted([512, 1, 0, 1, 511, 0]),
            _ => String::from("refused 12\n"),
        };
        assert_eq!(lines, expected, "{count} records");
    }
    let many = records(513);
    for bytes in [17_919, 17_921, 17_954] {
        assert_eq!(place.expect_same(&many[..bytes], &last), "refused 12\n");
    }
    // The last record of the longest list, and what comes first in a longer one.
    for (axis, variant, refusal) in [
        (511, 0, "refused 13\n"),
        (510, 1, "refused 14\n"),
        (510, 0, "refused 13\n"),
    ] {
        let mut wrong = many.clone();
        wrong[17_920 - 35..17_920].copy_from_slice(&record(axis, variant, b""));
        assert_eq!(place.expect_same(&wrong[..17_920], b""), refusal);
        assert_eq!(place.expect_same(&wrong, b""), "refused 12\n");
    }
}

/// Neither an axis with two records, the same or not, nor one after a greater
/// one has a report, whatever the tables are. What is wrong with an earlier
/// record is told before.
#[test]
fn axes_that_do_not_rise() {
    let place = Place::of_test("axes that do not rise");
    let [hold, lift, other] = [
        record_of(7, &VARIANTS[5], HOLD),
        record_of(7, &VARIANTS[1], LIFT),
        record_of(8, FAST, LIFT),
    ];
    let wrong = record(7, 12, b"");
    for (records, refusal) in [
        ([&hold, &hold, &other], "refused 14\n"),
        ([&hold, &lift, &other], "refused 14\n"),
        ([&hold, &other, &lift], "refused 14\n"),
        ([&hold, &other, &other], "refused 14\n"),
        ([&other, &hold, &wrong], "refused 14\n"),
        ([&hold, &wrong, &hold], "refused 13\n"),
        ([&wrong, &other, &hold], "refused 13\n"),
    ] {
        let list = records.map(Vec::as_slice).concat();
        for stream in [Vec::new(), table(7, HOLD), table(8, LIFT)] {
            assert_eq!(place.expect_same(&list, &stream), refusal);
        }
    }
    let same = record(65_535, 6, b"").repeat(512);
    assert_eq!(place.expect_same(&same, b""), "refused 14\n");
}

/// Lists of no record up to as many as can be, with two numbers between every two
/// axes: each listed axis is looked for, and each number beside it. Every number
/// has a table of its own, so that none passes by the record of a different one.
#[test]
fn every_axis_is_looked_for() {
    let place = Place::of_test("every axis is looked for");
    let axis = |k: usize| 3 * k as u16 + 1;
    let own = |axis: u16| axis.to_be_bytes();
    let longest: Vec<u8> = (0..512)
        .flat_map(|k| record_of(axis(k), FAST, &own(axis(k))))
        .collect();
    for count in (0..18).chain([63, 64, 65, 255, 256, 257, 511, 512]) {
        let list = &longest[..35 * count];
        let all: Vec<u8> = (0..=axis(count) + 2)
            .flat_map(|axis| table(axis, &own(axis)))
            .collect();
        let others = 2 * count + 4;
        let expected = counted([count, count + others, count, 0, 0, others]);
        assert_eq!(place.expect_same(list, &all), expected);
        // Wrong ones for every second axis, from the last to the first.
        let told: Vec<usize> = (0..count).rev().step_by(2).collect();
        let (some, untold) = (told.len(), count - told.len());
        let stream: Vec<u8> = told.iter().flat_map(|&k| table(axis(k), HOLD)).collect();
        let expected = counted([count, some, 0, some, untold, 0]);
        assert_eq!(place.expect_same(list, &stream), expected);
    }
}

/// The longest list over all numbers, from the least to the greatest: every
/// number but one has an empty table.
#[test]
fn every_axis_number() {
    let place = Place::of_test("every axis number");
    for (first, numbers) in [(0, 0..=65_534), (127, 1..=65_535)] {
        let list: Vec<u8> = (0..512)
            .flat_map(|k| record_of(128 * k + first, FAST, b""))
            .collect();
        let stream: Vec<u8> = numbers.flat_map(|axis| header(axis, 0)).collect();
        let expected = counted([512, 65_535, 512, 0, 0, 65_535 - 512]);
        assert_eq!(place.expect_same(&list, &stream), expected);
    }
}

/// One table fewer, as many, and one more than are read: the last of them
/// is the only one that is listed.
#[test]
fn as_many_tables_as_are_looked_at() {
    let place = Place::of_test("as many tables as are looked at");
    for (unlisted, expected) in [
        (65_533, [3, 65_534, 1, 0, 2, 65_533]),
        (65_534, [3, 65_535, 1, 0, 2, 65_534]),
        (65_535, [3, 65_535, 0, 0, 3, 65_535]),
    ] {
        let stream = [header(9, 0).repeat(unlisted), table(258, LIFT)].concat();
        assert_eq!(place.expect_same(&three(), &stream), counted(expected));
    }
    for extra in 0..2 {
        let stream = header(7, 0).repeat(65_535 + extra);
        let lines = place.expect_same(&three(), &stream);
        assert_eq!(lines, counted([3, 65_535, 0, 65_535, 2, 0]));
    }
}

/// How long a program that has read enough may go on.
const PATIENCE: Duration = Duration::from_secs(20);

/// Waits for an end, but not for ever.
fn ended(mut child: Child) -> Output {
    let begun = Instant::now();
    while child.try_wait().expect("a program").is_none() {
        if begun.elapsed() > PATIENCE {
            child.kill().expect("a program to stop");
            panic!("the program waits for more");
        }
        thread::sleep(Duration::from_millis(5));
    }
    child.wait_with_output().expect("an end")
}

/// The pipe stays open, and the program ends all the same.
#[test]
fn nothing_is_waited_for_after_the_last_table() {
    let place = Place::of_test("nothing is waited for");
    let (child, mut pipe) = started(place.program(&three()));
    let stream = header(9, 0).repeat(65_535);
    pipe.write_all(&stream).expect("a program that reads");
    expect(&ended(child), 0, &lines(&three(), &stream), "");
    drop(pipe);
}

/// With a refused list nothing is waited for either.
#[test]
fn nothing_is_waited_for_with_a_refused_list() {
    let place = Place::of_test("nothing is waited for with a refused list");
    for (list, line) in refused() {
        let (child, pipe) = started(place.program(&list));
        expect(&ended(child), 0, line, "");
        drop(pipe);
    }
}

/// The digest of [`MESSAGE_LIMIT`] bytes 31 under [`FAST`], as both sides gave
/// it.
const OF_LONGEST: &str = "439942cae5995486622ae4e0916178391b821ef95305819181da1ffa70e148f9";

/// Both lengths at the limit, listed and not, and a short table after them.
#[test]
fn tables_at_the_limit() {
    let place = Place::of_test("tables at the limit");
    let list = [
        record_of(0, FAST, HOLD),
        record(7, FAST.number as u8, &bytes(OF_LONGEST)),
        record(258, 6, b""),
    ]
    .concat();
    let limit = MESSAGE_LIMIT as u32;
    let contents = vec![0x31; MESSAGE_LIMIT + 1];
    let [longest, too_long] = [&contents[1..], &contents[..]].map(<[u8]>::to_vec);
    if settings::minutes().is_some() {
        let expected = digest(FAST.number, &longest).expect("not too long");
        assert_eq!(expected, bytes(OF_LONGEST));
    }
    let pieces = vec![
        header(7, limit),
        longest.clone(),
        header(258, limit + 1),
        too_long.clone(),
        header(9, limit),
        longest,
        header(9, limit + 1),
        too_long,
        table(0, HOLD),
    ];
    let lines = place.printed(&list, pieces);
    assert_eq!(lines, counted([3, 5, 2, 1, 0, 2]));
}

/// A table past the limit, and one of the greatest length, that are cut short.
#[test]
fn long_tables_cut_short() {
    let place = Place::of_test("long tables cut short");
    let limit = MESSAGE_LIMIT as u32;
    let front = table(258, LIFT);
    let contents = vec![0x31; MESSAGE_LIMIT];
    for axis in [7, 9] {
        for length in [limit + 1, u32::MAX] {
            let pieces = vec![front.clone(), header(axis, length), contents.clone()];
            let lines = place.printed(&three(), pieces);
            assert_eq!(lines, counted([3, 1, 1, 0, 2, 0]), "{length} of {axis}");
        }
        let nothing = [front.clone(), header(axis, u32::MAX)].concat();
        place.expect_same(&three(), &nothing);
    }
}

/// More than a pipe holds and a read takes, and tables that end with a read,
/// a byte before and a byte after.
#[test]
fn tables_in_several_reads() {
    let place = Place::of_test("tables in several reads");
    let mut random = Random::of_test("tables_in_several_reads");
    let long = random.bytes(150_000);
    let list = [record_of(7, FAST, &long), record_of(258, FAST, LIFT)].concat();
    let stream = [table(7, &long), table(9, &long), table(258, LIFT)].concat();
    let lines = place.expect_same(&list, &stream);
    assert_eq!(lines, counted([2, 3, 2, 0, 0, 1]));
    for end in [65_535, 65_536, 65_537, 131_072] {
        for listed in [7, 9] {
            let contents = &long[..end - 6];
            let list = [record_of(7, FAST, contents), record_of(258, FAST, LIFT)].concat();
            let stream = [table(listed, contents), table(258, LIFT)].concat();
            place.expect_same(&list, &stream);
        }
    }
}

/// Runs a command each of whose reads brings one of these pieces, from a socket
/// that keeps them apart, and then the end.
fn read_by_read<'a>(mut command: Command, pieces: impl Iterator<Item = &'a [u8]>) -> Output {
    let (ours, theirs) = UnixDatagram::pair().expect("two sockets");
    let closing = theirs.try_clone().expect("a socket");
    let child = command
        .stdin(Stdio::from(OwnedFd::from(theirs)))
        .stdout(Stdio::piped())
        .stderr(Stdio::piped())
        .spawn()
        .expect("a program to run");
    for piece in pieces {
        ours.send(piece).expect("a program that reads");
    }
    closing.shutdown(Shutdown::Read).expect("an end to set");
    child.wait_with_output().expect("an end")
}

#[test]
fn one_byte_at_a_time() {
    let place = Place::of_test("one byte at a time");
    let stream = [
        table(7, HOLD),
        table(9, HOLD),
        table(0, b""),
        table(258, LIFT),
        header(7, 65_536),
    ]
    .concat();
    let expected = lines(&three(), &stream);
    assert_eq!(expected, counted([3, 4, 3, 0, 0, 1]));
    let output = read_by_read(place.program(&three()), stream.chunks(1));
    expect(&output, 0, &expected, "");
}

/// A stream cut anywhere, into pieces that a read brings one of.
#[test]
fn pieces_cut_anywhere() {
    let place = Place::of_test("pieces cut anywhere");
    let mut random = Random::of_test("pieces_cut_anywhere");
    for _ in 0..amount(40, 5) {
        let (list, tables) = manifest(&mut random, 5);
        let stream = stream(&mut random, &tables);
        let pieces = random.cut(&stream, 30);
        let some = pieces.into_iter().filter(|piece| !piece.is_empty());
        let output = read_by_read(place.program(&list), some);
        expect(&output, 0, &lines(&list, &stream), "");
    }
}

/// Expects refusal 12 of the program in a folder, whatever the stream.
fn expect_no_manifest(place: &Place) {
    for stream in [Vec::new(), table(7, HOLD)] {
        expect(&fed(place.bare(), vec![stream]), 0, "refused 12\n", "");
    }
}

#[test]
fn a_list_that_is_not_there() {
    let place = Place::of_test("a list that is not there");
    expect_no_manifest(&place);
    fs::write(place.0.join("Rig"), three()).expect("a file to write");
    fs::write(place.0.join("rig.txt"), three()).expect("a file to write");
    expect_no_manifest(&place);
    symlink("nowhere", place.0.join("rig")).expect("a link");
    expect_no_manifest(&place);
}

#[test]
fn a_list_that_cannot_be_read() {
    let place = Place::of_test("a list that cannot be read");
    let path = place.0.join("rig");
    fs::create_dir(&path).expect("a folder to make");
    expect_no_manifest(&place);
    fs::remove_dir(&path).expect("a folder to remove");
    fs::write(&path, three()).expect("a file to write");
    fs::set_permissions(&path, fs::Permissions::from_mode(0o000)).expect("a file of ours");
    let owner = fs::metadata("/proc/self").expect("a process").uid();
    if owner != 0 {
        // Who is 0 may read everything.
        expect_no_manifest(&place);
    }
}

/// By a link, one that has no bytes, and one that never ends.
#[test]
fn lists_elsewhere() {
    let place = Place::of_test("lists elsewhere");
    let path = place.0.join("rig");
    let stream = table(7, HOLD);
    fs::write(place.0.join("list"), three()).expect("a file to write");
    for (target, expected) in [
        ("list", lines(&three(), &stream)),
        ("/dev/null", lines(b"", &stream)),
        ("/dev/zero", String::from("refused 12\n")),
    ] {
        symlink(target, &path).expect("a link");
        let output = fed(place.bare(), vec![stream.clone()]);
        expect(&output, 0, &expected, "");
        fs::remove_file(&path).expect("a link to remove");
    }
}

/// A command with standard input closed.
fn without_input(command: &Command) -> Command {
    let mut shell = Command::new("sh");
    shell.args(["-c", "exec \"$@\" <&-", "sh"]);
    shell.arg(command.get_program()).args(command.get_args());
    if let Some(folder) = command.get_current_dir() {
        shell.current_dir(folder);
    }
    shell
}

/// What is refused is told all the same, since the list comes first.
#[test]
fn input_that_cannot_be_read() {
    let place = Place::of_test("input that cannot be read");
    let unreadable = [three(), Vec::new()].map(|list| (list, "", UNREADABLE));
    let refused = refused().map(|(list, line)| (list, line, ""));
    for (list, out, err) in unreadable.into_iter().chain(refused) {
        let folder = File::open(root()).expect("a folder");
        let output = place.program(&list).stdin(folder).output();
        expect(&output.expect("an end"), 0, out, err);
        let output = without_input(&place.program(&list)).output();
        expect(&output.expect("an end"), 0, out, err);
    }
}

/// The maximum memory of the program over a stream of `count` such tables,
/// of which it has read all but what the pipe still holds.
fn peak_over(place: &Place, table: &[u8], count: usize) -> usize {
    let (child, mut pipe) = started(place.program(&three()));
    for _ in 0..count {
        pipe.write_all(table).expect("a program that reads");
    }
    let peak = peak(&child);
    drop(pipe);
    let output = child.wait_with_output().expect("an end");
    let lines = String::from_utf8_lossy(&output.stdout);
    assert!(lines.contains(&format!("\ntables {count}\n")), "{lines}");
    peak
}

/// From 1 MiB to 64 MiB of tables that are not hashed, and from 256 KiB to 4 MiB
/// of such that are. The system counts pages only so well.
#[test]
fn memory_does_not_grow() {
    const ROOM: usize = 1024;
    let place = Place::of_test("memory does not grow");
    for (axis, counts) in [(9, [16, 1024]), (0, [4, 64])] {
        let table = table(axis, &[0x31; 65_530]);
        let [small, big] = counts.map(|count| peak_over(&place, &table, count));
        println!("{counts:?} tables of 64 KiB: {small} KiB, {big} KiB");
        assert!(big <= small + ROOM, "{small} KiB, then {big} KiB");
    }
}

/// The script. Its first use after a change proves and builds, and says so.
fn script(words: &[&str]) -> Command {
    static FIRST: Once = Once::new();
    let path = root().join("report");
    FIRST.call_once(|| {
        let place = Place::of_test("first use");
        fs::write(place.0.join("rig"), b"").expect("a file to write");
        let mut first = Command::new(&path);
        let output = first.arg(&place.0).stdin(Stdio::null()).output();
        assert!(output.expect("an end").status.success());
    });
    let mut command = Command::new(path);
    command.args(words);
    command
}

/// A folder is named by its path, by a name within the current one, and not at
/// all.
#[test]
fn the_script_goes_to_the_folder() {
    let place = Place::of_test("the script goes to the folder");
    let stream = [table(7, HOLD), table(9, b"")].concat();
    let expected = lines(&three(), &stream);
    for name in ["two  words", "-P", "tab\there", "a/b"] {
        let inner = place.0.join(name);
        fs::create_dir_all(&inner).expect("a folder to make");
        fs::write(inner.join("rig"), three()).expect("a file to write");
        let path = inner.to_str().expect("a plain name");
        let mut by_name = script(&[name]);
        by_name.current_dir(&place.0).env("CDPATH", "/");
        let mut by_none = script(&[]);
        by_none.current_dir(&inner);
        for command in [script(&[path]), by_name, by_none] {
            expect(&fed(command, vec![stream.clone()]), 0, &expected, "");
        }
    }
}

#[test]
fn the_script_tells_a_refusal() {
    let place = Place::of_test("the script tells a refusal");
    let path = place.0.to_str().expect("a plain name");
    let output = fed(script(&[path]), vec![table(7, HOLD)]);
    expect(&output, 1, "refused 12\n", "");
    for (list, line) in refused() {
        fs::write(place.0.join("rig"), list).expect("a file to write");
        for stream in [Vec::new(), vec![0x31; 1_000_000]] {
            expect(&fed(script(&[path]), vec![stream]), 1, line, "");
        }
    }
}

#[test]
fn the_script_tells_what_it_cannot_read() {
    let place = Place::of_test("the script tells what it cannot read");
    fs::write(place.0.join("rig"), three()).expect("a file to write");
    let path = place.0.to_str().expect("a plain name");
    let file = format!("{path}/rig");
    let missing = format!("{path}/no such folder");
    for (folder, complaint) in [
        (&file, format!("report: {file}: is not a folder\n")),
        (&missing, format!("report: {missing}: no such folder\n")),
        (&String::new(), String::from("report: : no such folder\n")),
    ] {
        let output = script(&[folder]).stdin(Stdio::null()).output();
        expect(&output.expect("an end"), 1, "", &complaint);
    }
    let folder = File::open(root()).expect("a folder");
    let output = script(&[path]).stdin(folder).output();
    expect(&output.expect("an end"), 1, "", UNREADABLE);
    let output = without_input(&script(&[path])).output();
    let closed = "report: standard input is closed\n";
    expect(&output.expect("an end"), 1, "", closed);
}

#[test]
fn the_script_refuses_wrong_words() {
    let wanted = "report: at most one folder is taken, \
        as in: report FOLDER < TABLES (report --help says more)\n";
    for words in [&["a", "b"][..], &[".", "."], &["a", "b", "c"]] {
        let output = script(words).stdin(Stdio::null()).output();
        expect(&output.expect("an end"), 2, "", wanted);
    }
}

#[test]
fn the_script_explains_itself() {
    for word in ["--help", "-h"] {
        let output = script(&[word]).stdin(Stdio::null()).output();
        let output = output.expect("an end");
        let text = String::from_utf8_lossy(&output.stdout).into_owned();
        expect(&output, 0, &text, "");
        assert!(text.starts_with("usage: report [FOLDER] < TABLES\n"));
        let counts = Counts::default().to_string();
        for line in counts.lines() {
            let name = line.split(' ').next().expect("a name");
            assert!(text.contains(&format!("\n   {name} ")), "{name}");
        }
    }
}

/// The commands of README.md, and what it says that they print. One of them
/// builds the example that writes manifests.
#[test]
fn the_example_of_the_readme() {
    let place = folder("the example of the readme");
    let root = root().canonicalize().expect("a folder");
    for name in ["digest", "report", "examples", "target"] {
        symlink(root.join(name), place.join(name)).expect("a link");
    }
    let readme = fs::read_to_string(root.join("README.md")).expect("README.md");
    let (_, section) = readme
        .split_once("## The report of an installation")
        .expect("its section");
    let mut blocks = section
        .split("\n\n")
        .filter(|block| block.starts_with("    "))
        .map(|block| {
            let lines = block.lines().map(|line| format!("{}\n", line.trim_start()));
            lines.collect::<String>()
        });
    let [commands, printed] = [(); 2].map(|()| blocks.next().expect("a block"));
    let output = Command::new("bash")
        .args(["-e", "-c", &commands])
        .current_dir(&place)
        .output()
        .expect("an end");
    let [out, err] = [&output.stdout, &output.stderr].map(|text| String::from_utf8_lossy(text));
    assert_eq!(out, printed, "{err}");
    assert!(output.status.success(), "{err}");
}

/// A list that comes from a different program, through a pipe with a name.
#[test]
fn a_list_from_a_named_pipe() {
    let place = Place::of_test("a list from a named pipe");
    let path = place.0.join("rig");
    let made = Command::new("mkfifo").arg(&path).status();
    assert!(made.expect("mkfifo").success());
    let stream = [table(7, HOLD), table(9, b"")].concat();
    for list in [three(), vec![0; 34]] {
        let expected = lines(&list, &stream);
        let path = path.clone();
        let writer = thread::spawn(move || fs::write(path, list).expect("a reader"));
        let output = fed(place.bare(), vec![stream.clone()]);
        writer.join().expect("no panic");
        expect(&output, 0, &expected, "");
    }
}
