//! The program `digest` and the script around it, run as a user runs them.

use std::fs::{self, File};
use std::path::Path;
use std::process::{Command, Output, Stdio};
use std::sync::Once;

use wickslate_conformance::chains::hexadecimal;
use wickslate_conformance::programs::{self, expect, fed, root};
use wickslate_conformance::random::Random;
use wickslate_reference::{digest, MESSAGE_LIMIT, VARIANTS};

/// The sponge that takes the least time for a byte.
const FAST: u32 = 5;

fn program() -> Command {
    programs::program("digest")
}

/// The script. Its first use after a change proves and builds, and says so.
fn script(words: &[&str]) -> Command {
    static FIRST: Once = Once::new();
    let path = root().join("digest");
    FIRST.call_once(|| {
        let output = Command::new(&path).args(["1", "/dev/null"]).output();
        assert!(output.expect("an end").status.success());
    });
    let mut command = Command::new(path);
    command.args(words);
    command
}

/// Expects these bytes on standard output and nothing on the other.
fn expect_line(output: &Output, status: i32, line: &str) {
    expect(output, status, &format!("{line}\n"), "");
}

/// Expects a complaint alone.
fn expect_complaint(output: &Output, status: i32, complaint: &str) {
    expect(output, status, "", &format!("digest: {complaint}\n"));
}

/// The line for a message.
fn line(number: u32, message: &[u8]) -> String {
    hexadecimal(&digest(number, message).expect("a short message"))
}

/// The program's input: the variant's byte and the message.
fn input(number: u32, message: &[u8]) -> Vec<u8> {
    [&[number as u8], message].concat()
}

#[test]
fn no_input() {
    expect_line(&fed(program(), Vec::new()), 0, "refused 1");
    let output = program().stdin(Stdio::null()).output();
    expect_line(&output.expect("an end"), 0, "refused 1");
}

#[test]
fn a_variant_byte_alone() {
    for variant in &VARIANTS {
        let output = fed(program(), vec![input(variant.number, b"")]);
        expect_line(&output, 0, &line(variant.number, b""));
    }
}

#[test]
fn unknown_variants() {
    for number in [0, 12, u32::from(b'1'), u32::from(b'p'), 128, 255] {
        for message in [&b""[..], b"abc", &[7; 100_000]] {
            let output = fed(program(), vec![input(number, message)]);
            expect_line(&output, 0, "refused 1");
        }
    }
}

#[test]
fn the_known_message() {
    let message = b"The PHOTON Lightweight Hash Functions Family";
    let output = fed(program(), vec![input(1, message)]);
    expect_line(&output, 0, "07d1723459751e368532");
}

/// Annex B.3 of the standard.
#[test]
fn the_known_message_of_lesamnta_lw() {
    let output = fed(program(), vec![b"\x0babc".to_vec()]);
    let line = "ab32ca451748255e3bf0e34a5ad600f0ce7660ecea2fe083ba54139b770766d0";
    expect_line(&output, 0, line);
}

/// Every byte value, line ends and zeros among them, and random bytes.
#[test]
fn binary_input() {
    let mut random = Random::of_test("binary_input");
    let every: Vec<u8> = (0..=255).chain((0..=255).rev()).collect();
    for variant in &VARIANTS {
        for message in [
            every.clone(),
            b"\n\0\r\n\x1a\x04".to_vec(),
            random.bytes(1000),
        ] {
            let output = fed(program(), vec![input(variant.number, &message)]);
            expect_line(&output, 0, &line(variant.number, &message));
        }
    }
}

/// More than a pipe holds, and less than a block at a time.
#[test]
fn pieces_of_input() {
    let mut random = Random::of_test("pieces_of_input");
    let long = random.bytes(150_000);
    let output = fed(program(), vec![input(FAST, &long)]);
    expect_line(&output, 0, &line(FAST, &long));
    for variant in &VARIANTS {
        let short = random.bytes(40);
        let bytes = input(variant.number, &short);
        let pieces = bytes.chunks(1).map(<[u8]>::to_vec).collect();
        expect_line(&fed(program(), pieces), 0, &line(variant.number, &short));
    }
}

#[test]
fn a_message_past_the_limit() {
    let message = vec![0x31; MESSAGE_LIMIT + 1];
    let output = fed(program(), vec![input(FAST, b""), message]);
    expect_line(&output, 0, "refused 4");
}

#[test]
fn input_that_cannot_be_read() {
    let folder = File::open(root()).expect("a folder");
    let output = program().stdin(folder).output().expect("an end");
    expect_complaint(&output, 0, "standard input cannot be read");
}

/// A file with these bytes, which the caller names.
fn file(name: &str, bytes: &[u8]) -> String {
    let path = Path::new(env!("CARGO_TARGET_TMPDIR")).join(name);
    fs::write(&path, bytes).expect("a file to write");
    path.into_os_string().into_string().expect("a plain name")
}

#[test]
fn the_script_knows_names_and_numbers() {
    let message = b"6.20 m\n";
    let path = file("six metres", message);
    for variant in &VARIANTS {
        let number = variant.number.to_string();
        for name in [variant.name, &variant.name.to_uppercase(), &number] {
            let output = script(&[name, &path]).output().expect("an end");
            expect_line(&output, 0, &line(variant.number, message));
        }
    }
}

#[test]
fn the_script_reads_standard_input() {
    let output = fed(script(&["spongent-176", "-"]), vec![b"abc".to_vec()]);
    expect_line(&output, 0, &line(8, b"abc"));
}

#[test]
fn the_script_hashes_an_empty_file() {
    let path = file("empty", b"");
    let output = script(&["photon-144", &path]).output().expect("an end");
    expect_line(&output, 0, &line(2, b""));
}

#[test]
fn the_script_names_what_it_cannot_read() {
    let folder = env!("CARGO_TARGET_TMPDIR");
    let missing = format!("{folder}/no such file");
    let output = script(&["photon-100", &missing]).output().expect("an end");
    expect_complaint(&output, 1, &format!("{missing}: no such file"));
    let output = script(&["photon-100", folder]).output().expect("an end");
    expect_complaint(&output, 1, &format!("{folder}: is a directory"));
}

#[test]
fn the_script_refuses_wrong_words() {
    let wanted = "a variant and a file are needed, \
        as in: digest photon-100 FILE (digest --help says more)";
    for words in [&[][..], &["photon-100"], &["photon-100", "a", "b"]] {
        expect_complaint(&script(words).output().expect("an end"), 2, wanted);
    }
    for name in ["photon-80", "0", "12", "", "spongent", "lesamnta"] {
        let output = script(&[name, "-"]).output().expect("an end");
        let complaint = format!("{name} is not a variant (digest --help lists them)");
        expect_complaint(&output, 2, &complaint);
    }
}

#[test]
fn the_script_explains_itself() {
    for word in ["--help", "-h"] {
        let output = script(&[word]).output().expect("an end");
        let text = String::from_utf8_lossy(&output.stdout);
        assert_eq!(output.status.code(), Some(0));
        assert!(text.starts_with("usage: digest VARIANT FILE\n"));
        assert!(VARIANTS.iter().all(|variant| text.contains(variant.name)));
    }
}
