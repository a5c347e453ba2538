//! Writes the manifest of an installation from a text that people keep, and
//! prints a manifest as such a text. [`HELP`] says what a line of it is.
//!
//!     manifest write TEXT RIG
//!     manifest print RIG

use std::collections::BTreeMap;
use std::env;
use std::fmt::Display;
use std::fs::{self, File};
use std::io::{self, Read, Write};
use std::path::Path;
use std::process::{self, ExitCode};
use std::str;

// One file with the types and the calls of the archive: take it along.
#[allow(dead_code)]
#[path = "../conformance/src/wickslate.rs"]
mod wickslate;

const USAGE: &str = "usage: manifest write TEXT RIG\n       manifest print RIG\n";

const HELP: &str = "
Writes the manifest RIG from TEXT (- for standard input), or prints a manifest as
such a text. A line has an axis number from 0 to 65535, a variant by its name or its
number, and the digest of the axis's table, as ./digest prints it:

   258 spongent-88 b9729716115fee55b0a082

Lines may stand in any order; in the manifest the axes rise. Empty lines and lines
that begin with # are skipped. If any line is bad, all bad ones are told by
their numbers and nothing is written; nor is it for a text without an axis. From
what print prints, write makes the same manifest again.

Exit status: 0; 1, a line is bad, there is no axis, the manifest is refused, or a
file cannot be read or written; 2, wrong arguments.
";

const RECORD_BYTES: usize = 35;
const MAX_RECORDS: usize = 512;

/// The name and the digest bytes of variants 1 to 11.
const VARIANTS: [(&str, usize); 11] = [
    ("photon-100", 10),
    ("photon-144", 16),
    ("photon-196", 20),
    ("photon-256", 28),
    ("photon-288", 32),
    ("spongent-88", 11),
    ("spongent-136", 16),
    ("spongent-176", 20),
    ("spongent-240", 28),
    ("spongent-272", 32),
    ("lesamnta-lw", 32),
];

/// The records of a text by axis, so that they come out rising, each with the
/// number of its line.
type Records = BTreeMap<u16, (usize, Vec<u8>)>;

/// A line of what is told about a file.
fn complaint(file: &Path, what: impl Display) -> String {
    format!("manifest: {}: {what}\n", file.display())
}

fn axis_number(word: &str) -> Result<u16, String> {
    // A plus sign would pass for a part of the number.
    let number = word.parse().ok().filter(|_| !word.starts_with('+'));
    number.ok_or_else(|| format!("{word:?} is not an axis from 0 to 65535"))
}

/// The number of a variant, its name and its digest bytes.
fn variant(word: &str) -> Result<(u8, &'static str, usize), String> {
    let numbered = VARIANTS.iter().zip(1..);
    numbered
        .map(|(&(name, bytes), number)| (number, name, bytes))
        .find(|(number, name, _)| name.eq_ignore_ascii_case(word) || number.to_string() == word)
        .ok_or_else(|| format!("there is no variant {word:?}"))
}

/// The bytes of a digest, or why it cannot be one of the variant.
fn digest(word: &str, name: &str, bytes: usize) -> Result<Vec<u8>, String> {
    let digits: Option<Vec<u32>> = word.chars().map(|digit| digit.to_digit(16)).collect();
    let digits = digits.ok_or("the digest is not hexadecimal")?;
    let (given, wanted) = (digits.len(), 2 * bytes);
    if given != wanted {
        let lengths = format!("{given} digits, not the {wanted} of {name}");
        return Err(format!("the digest has {lengths}"));
    }
    let byte = |pair: &[u32]| (16 * pair[0] + pair[1]) as u8;
    Ok(digits.chunks(2).map(byte).collect())
}

/// The axis and the record of a line, none if nothing is on it, or what is wrong
/// with it.
fn record(line: &[u8]) -> Result<Option<(u16, Vec<u8>)>, String> {
    if line.starts_with(b"#") {
        return Ok(None);
    }
    let line = str::from_utf8(line).map_err(|_| "the line is not UTF-8")?;
    let line = line.strip_suffix('\r').unwrap_or(line);
    let words = line.split([' ', '\t']).filter(|word| !word.is_empty());
    let (axis, named, digits) = match words.collect::<Vec<_>>()[..] {
        [] => return Ok(None),
        [axis, named, digits] => (axis, named, digits),
        _ => return Err("an axis, a variant and a digest are wanted".into()),
    };
    let axis = axis_number(axis)?;
    let (number, name, bytes) = variant(named)?;
    let digest = digest(digits, name, bytes)?;
    let mut record = [&axis.to_be_bytes()[..], &[number], &digest].concat();
    record.resize(RECORD_BYTES, 0);
    Ok(Some((axis, record)))
}

/// Takes a line to the records, or says what is wrong with it.
fn take(records: &mut Records, line: &[u8], number: usize) -> Result<(), String> {
    let Some((axis, record)) = record(line)? else {
        return Ok(());
    };
    if let Some((earlier, _)) = records.get(&axis) {
        return Err(format!("axis {axis} is on line {earlier} already"));
    }
    records.insert(axis, (number, record));
    // Told once, and not again for every axis after it.
    if records.len() == MAX_RECORDS + 1 {
        return Err(format!("more than {MAX_RECORDS} axes"));
    }
    Ok(())
}

/// The manifest of a text, or what is wrong with each of its bad lines.
fn list_of(text: &[u8]) -> Result<Vec<u8>, Vec<String>> {
    let mut records = Records::new();
    let mut reasons = Vec::new();
    for (line, number) in text.split(|&byte| byte == b'\n').zip(1..) {
        if let Err(reason) = take(&mut records, line, number) {
            reasons.push(format!("line {number}: {reason}"));
        }
    }
    // An empty manifest passes, but is hardly what is meant.
    if reasons.is_empty() && records.is_empty() {
        reasons.push("no line has an axis".into());
    }
    if !reasons.is_empty() {
        return Err(reasons);
    }
    let rising = records.into_values().flat_map(|(_, record)| record);
    Ok(rising.collect())
}

/// Asks the archive whether a manifest is sound.
fn check(list: &[u8]) -> Result<(), String> {
    let refusal = wickslate::check_manifest(list).number();
    let meaning = match refusal {
        0 => return Ok(()),
        12 => "not in whole records of 35 bytes, or more than 512 of them",
        13 => "a record of no variant, or with filler that is not zero",
        14 => "a record with the axis number of the one before it, or a lower one",
        _ => "for a reason that this program does not know",
    };
    Err(format!("refused {refusal}: {meaning}"))
}

fn read_text(path: &Path) -> io::Result<Vec<u8>> {
    if path.as_os_str() != "-" {
        return fs::read(path);
    }
    let mut text = Vec::new();
    io::stdin().read_to_end(&mut text)?;
    Ok(text)
}

/// The bytes of a manifest; of one that is too long, a byte too many.
fn read_list(path: &Path) -> io::Result<Vec<u8>> {
    let max = (MAX_RECORDS * RECORD_BYTES) as u64;
    let mut list = Vec::new();
    File::open(path)?.take(max + 1).read_to_end(&mut list)?;
    Ok(list)
}

/// Gives a file these bytes. They are written to a new one beside it, which
/// then takes its place, so that a failure leaves the file as it was.
fn replace(path: &Path, bytes: &[u8]) -> io::Result<()> {
    // If a link to a file is named, that file is meant.
    let path = fs::canonicalize(path).unwrap_or_else(|_| path.to_path_buf());
    if path.exists() && !path.is_file() {
        return Err(io::Error::other("not a file"));
    }
    let mut beside = path.clone().into_os_string();
    beside.push(format!(".{}", process::id()));
    let mut file = File::create_new(&beside)?;
    let replaced = file.write_all(bytes).and_then(|()| {
        file.sync_all()?;
        if let Ok(old) = fs::metadata(&path) {
            file.set_permissions(old.permissions())?;
        }
        fs::rename(&beside, &path)
    });
    if replaced.is_err() {
        // What is told is why the file was not replaced, and not this.
        let _ = fs::remove_file(&beside);
    }
    replaced
}

fn write(text: &Path, rig: &Path) -> Result<(), String> {
    let lines = read_text(text).map_err(|error| complaint(text, error))?;
    let list = list_of(&lines).map_err(|reasons| {
        let complaints = reasons.iter().map(|reason| complaint(text, reason));
        complaints.collect::<String>()
    })?;
    check(&list).map_err(|reason| complaint(rig, reason))?;
    replace(rig, &list).map_err(|error| complaint(rig, error))
}

/// Prints all of a text, or says that it cannot.
fn print_text(text: &str) -> Result<(), String> {
    let mut out = io::stdout();
    let printed = out.write_all(text.as_bytes()).and_then(|()| out.flush());
    printed.map_err(|error| complaint(Path::new("standard output"), error))
}

/// The line of a sound record.
fn line(record: &[u8]) -> String {
    let axis = u16::from_be_bytes([record[0], record[1]]);
    let (name, bytes) = VARIANTS[usize::from(record[2]) - 1];
    let digest = &record[3..3 + bytes];
    let digits: String = digest.iter().map(|byte| format!("{byte:02x}")).collect();
    format!("{axis} {name} {digits}\n")
}

fn print(rig: &Path) -> Result<(), String> {
    let list = read_list(rig).map_err(|error| complaint(rig, error))?;
    check(&list).map_err(|reason| complaint(rig, reason))?;
    let text: String = list.chunks(RECORD_BYTES).map(line).collect();
    print_text(&text)
}

fn main() -> ExitCode {
    let words: Vec<_> = env::args_os().skip(1).collect();
    let (status, told) = match words.as_slice() {
        [word] if word == "--help" || word == "-h" => (1, print_text(&[USAGE, HELP].concat())),
        [verb, text, rig] if verb == "write" => (1, write(Path::new(text), Path::new(rig))),
        [verb, rig] if verb == "print" => (1, print(Path::new(rig))),
        _ => (2, Err(USAGE.into())),
    };
    match told {
        Ok(()) => ExitCode::SUCCESS,
        Err(complaints) => {
            // If nobody listens, the status still tells.
            let _ = io::stderr().write_all(complaints.as_bytes());
            ExitCode::from(status)
        }
    }
}
