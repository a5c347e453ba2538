//! The cases of the program `vectors`.

mod hexadecimal;

use std::path::Path;

use hexadecimal::bytes;
use wickslate_reference::cases;

/// A file beside the proved program.
fn kept(name: &str) -> String {
    let path = Path::new(env!("CARGO_MANIFEST_DIR")).join("../crates/vectors");
    let path = path.join(name);
    std::fs::read_to_string(&path).unwrap_or_else(|error| panic!("{}: {error}", path.display()))
}

/// The words of a call and those of its answer, in every line that is no
/// heading.
fn calls(printed: &str) -> Vec<(Vec<&str>, Vec<&str>)> {
    let lines = printed.lines().filter(|line| !line.starts_with('#'));
    let parts = lines.map(|line| line.split_once(" -> ").expect("an arrow"));
    parts
        .map(|(call, answer)| (call.split(' ').collect(), answer.split(' ').collect()))
        .collect()
}

fn assert_has(printed: &str, line: &str) {
    assert!(printed.lines().any(|printed| printed == line), "{line}");
}

/// The digits of the same bytes from the last byte on.
fn backward(digits: &str) -> String {
    let bytes = bytes(digits);
    bytes
        .iter()
        .rev()
        .map(|byte| format!("{byte:02x}"))
        .collect()
}

/// What the proved program reads and prints is kept beside it, and
/// `cargo run --release --bin cases` writes both.
#[test]
fn the_files_are_those_that_are_written() {
    let cases = cases();
    assert_eq!(cases.input(), kept("stdin"));
    assert_eq!(cases.output(), kept("stdout"));
}

/// Every line of the input is printed, a call with its answer.
#[test]
fn every_line_is_answered() {
    let [given, printed] = [kept("stdin"), kept("stdout")];
    assert_eq!(given.lines().count(), printed.lines().count());
    for (call, line) in given.lines().zip(printed.lines()) {
        match call.starts_with('#') {
            true => assert_eq!(line, call),
            false => assert!(line.starts_with(&format!("{call} -> ")), "{line}"),
        }
    }
}

/// The single permutations of Annex B, as it prints their states: those of
/// SPONGENT from the last byte on. Plain steps and words lead forward, and the
/// inverse leads back.
#[test]
fn lines_begin_with_annex_b() {
    let states = [
        ("00000000000000000001414100", "33d5f629b95c48165ce7b770c0"),
        (
            "000000000000000000000000000000201010",
            "95fc3ce22a2a632d6feb4e0b62592d8d0329",
        ),
        (
            "00000000000000000000000000000000000000000002824240",
            "1f0d4a1dd0a31decf5b69b66e0c8f644ceee9020f43a9de740",
        ),
        (
            "0000000000000000000000000000000000000000000000000000000000382020",
            "173042429cf26e108d3d9cf900e27bdcc629b3d1af41f1cb7483fcc08916b82c",
        ),
        (
            "000000000000000000000000000000000000000000000000000000000000000000402020",
            "4dbd90361cb5e09e5c38a9c9e9d56608cf52cb6bc88b9316e8c2c06925f718cc629cae79",
        ),
        ("0000000000000000000053", "f69a7be47d03c39920cd9e"),
        (
            "0000000000000000000000000000000053",
            "a71708de877efbd99b0403cab395c4db4d",
        ),
        (
            "00000000000000000000000000000000000000007053",
            "c612af721434233913487252969f37b88bcc3df17c3d",
        ),
        (
            "000000000000000000000000000000000000000000000000000000007053",
            "56243088814e5c08526af8a61ab1869059cdfd2f9bf890f749d121873ce4",
        ),
        (
            "00000000000000000000000000000000000000000000000000000000000000007053",
            "79385240d0f57d1c72b221364f02cd330cbfcde32a96bf5863bab4eae6b8afe5f6c2",
        ),
    ];
    let printed = kept("stdout");
    let mut lines = printed.lines().skip(1);
    for ((before, after), number) in states.iter().zip(1..) {
        let [before, after] = [before, after].map(|state| match number {
            ..=5 => state.to_string(),
            _ => backward(state),
        });
        for line in [
            format!("permute {number} {before} -> 0 {after}"),
            format!("permute-words {number} {before} -> 0 {after}"),
            format!("unpermute {number} {after} -> 0 {before}"),
        ] {
            assert_eq!(lines.next(), Some(line.as_str()));
        }
    }
}

/// The digests of Annex B, as it prints them, in one call and read at the end
/// of a running hash.
#[test]
fn lines_have_the_digests_of_annex_b() {
    let photon = "5468652050484f544f4e204c6967687477656967687420486173682046756e6374696f6e7320\
                  46616d696c79";
    let spongent = "53706f6e6765202b2050726573656e74203d2053706f6e67656e74";
    let digests = [
        (photon, "07d1723459751e368532"),
        (photon, "a1aa703c545e0c2dc1aeec32af3cb3e3"),
        (photon, "25fc7aa8f7b34f519f18d296b94b9bd951950308"),
        (
            photon,
            "0d041a1deabaa2fdc5a693566ff36dc859fe15f7fffbb4d6b50e1f94",
        ),
        (
            photon,
            "18a87bbd92ce34f9e8e23f4e1ae3fcdf8eb8d88df4a136357f7285505a85a513",
        ),
        (spongent, "69971bf96def95bfc46822"),
        (spongent, "6b7ba35eb09de0f8def06ae555694c53"),
        (spongent, "13188a4917ea29e258362c047b9bf00c22b5fe91"),
        (
            spongent,
            "8443b12d2eee4e09969a183205f5f7f684a711a5be079a15f4ccdc30",
        ),
        (
            spongent,
            "67dc8fc8b2edba6e55f4e68ec4f2b2196fe38df9b1a760f4d43b4669160bf5a8",
        ),
        (
            "616263",
            "ab32ca451748255e3bf0e34a5ad600f0ce7660ecea2fe083ba54139b770766d0",
        ),
    ];
    let printed = kept("stdout");
    for ((message, digest), number) in digests.iter().zip(1..) {
        let lent = "a0".repeat(digest.len() / 2);
        assert_has(
            &printed,
            &format!("digest {number} {message} - {lent} -> 0 {digest}"),
        );
        let front = format!("read-digest {number} 1 {} ", 4 * message.len());
        let end = format!(" {lent} -> 0 {digest}");
        let mut lines = printed.lines();
        let read = lines.any(|line| line.starts_with(&front) && line.ends_with(&end));
        assert!(read, "{front}..{end}");
    }
}

/// The values of Annex B.3, and the two steps that lead to its hash.
#[test]
fn lines_have_annex_b_3() {
    let start = "00000256".repeat(4);
    let hash = "ab32ca451748255e3bf0e34a5ad600f0ce7660ecea2fe083ba54139b770766d0";
    let printed = kept("stdout");
    for line in [
        "q-and-g 11 a4323129 0000025600000256 00000256 -> 0 95f80b6e a58d6363636326c8",
        &format!("end-state 11 616263 - {} -> 0 {hash}", "a0".repeat(32)),
    ] {
        assert_has(&printed, line);
    }
    let calls: Vec<&str> = printed
        .lines()
        .filter(|line| line.starts_with("encrypt ") || line.starts_with("decrypt "))
        .collect();
    let [first, back, second, _] = calls[..] else {
        panic!("two steps and their inverses: {calls:?}");
    };
    let block = format!("61626380{}", "0".repeat(24));
    let (_, value) = first.rsplit_once(' ').expect("an answer");
    assert_eq!(
        first,
        format!("encrypt 11 {start} {block}{start} -> 0 {value}")
    );
    assert_eq!(
        back,
        format!("decrypt 11 {start} {value} -> 0 {block}{start}")
    );
    let (key, half) = value.split_at(32);
    let length = format!("{:032x}", 24);
    assert_eq!(
        second,
        format!("encrypt 11 {key} {length}{half} -> 0 {hash}")
    );
}

/// The known values of document 01 that are run: entries over six bytes, the
/// image that no first block leads to, and the longest message, in bits.
#[test]
fn lines_have_the_known_values() {
    let printed = kept("stdout");
    let pair = |offset: u32, length: u32| format!("{offset:08x}{length:08x}");
    for (list, entry, answer) in [
        (pair(0, 2) + &pair(3, 2), 0, "0 1011"),
        (pair(0, 2) + &pair(3, 2), 1, "0 1314"),
        (pair(0, 2) + &pair(1, 2), 1, "10@1 -"),
        (pair(5, 2), 0, "11@0 -"),
        (pair(6, 0), 0, "0 -"),
    ] {
        assert_has(
            &printed,
            &format!("segment - {list} 101112131415 {entry} -> {answer}"),
        );
    }
    let calls = calls(&printed);
    let mut image = bytes("0001000000000000000000");
    assert_eq!(wickslate_reference::permute(6, &mut image), 0);
    let unreached: String = image.iter().map(|byte| format!("{byte:02x}")).collect();
    assert_has(&printed, &format!("recover 6 - - 0 {unreached} a0 -> 8 a0"));
    let [last, full] = [8 * 16_777_214, 8 * 16_777_215].map(|bits: u32| bits.to_string());
    for (total, answer, after) in [(&last, "0", &full), (&full, "4", &full)] {
        let taken = calls.iter().any(|(call, got)| {
            call.starts_with(&["update", "1", "0", total.as_str()])
                && call[6..] == ["ff", "-"]
                && [got[0], got[3]] == [answer, after.as_str()]
        });
        assert!(taken, "a byte after {total} bits");
    }
}

/// Document 02's 22 bytes of (0, 2), (3, 2): the digest over the list is that
/// of the message.
#[test]
fn a_list_has_the_digest_of_its_message() {
    let list = "00000000000000020000000300000002";
    let message = format!("0002{list}10111314");
    let printed = kept("stdout");
    let calls = calls(&printed);
    let digest = |call: [&str; 4]| {
        let found = calls.iter().find(|(words, _)| words.starts_with(&call));
        found.unwrap_or_else(|| panic!("{call:?}")).1.clone()
    };
    assert_eq!(message.len(), 44);
    assert_eq!(
        digest(["list-digest", "1", list, "101112131415"]),
        digest(["digest", "1", &message, "-"])
    );
}

/// Every operation has a line for each of its refusals but for a message
/// that is too long, which a program without a heap cannot hold, and for a
/// report with a wrong record, which no caller goes on with. The operations
/// that are given a bit number are told apart by it.
#[test]
fn every_answer_has_a_line() {
    let printed = kept("stdout");
    let calls = calls(&printed);
    let has = |operation: &str, bits: bool, refusal: u8| {
        calls.iter().any(|(call, answer)| {
            let place = match operation {
                "update" => 7,
                _ => 3,
            };
            let given = matches!(operation, "digest" | "end-state" | "update" | "recover")
                && call.get(place).is_some_and(|&word| word != "-");
            let number = answer[0].split('@').next();
            call[0] == operation && given == bits && number == Some(refusal.to_string().as_str())
        })
    };
    let answers: [(&str, bool, &[u8]); 25] = [
        ("permute", false, &[0, 1, 17, 6]),
        ("unpermute", false, &[0, 1, 17, 6]),
        ("permute-words", false, &[0]),
        ("q-and-g", false, &[0]),
        ("encrypt", false, &[0]),
        ("decrypt", false, &[0]),
        ("round", false, &[0]),
        ("unround", false, &[0]),
        ("digest", false, &[0, 1, 5]),
        ("end-state", false, &[0, 1, 5]),
        ("start", false, &[0, 1]),
        ("update", false, &[0, 2, 3, 16, 4]),
        ("finish", false, &[0, 2, 3]),
        ("read-digest", false, &[0, 2, 3, 5]),
        ("read-end-state", false, &[0, 2, 3, 5]),
        ("segment", false, &[0, 9, 7, 10, 11]),
        ("list-digest", false, &[0, 1, 9, 10, 11, 5]),
        ("list-end-state", false, &[0, 10, 11]),
        ("recover", false, &[0, 1, 7, 17, 6, 5, 8]),
        ("digest", true, &[0, 1, 15, 5]),
        ("end-state", true, &[0, 1, 15, 5]),
        ("recover", true, &[0, 1, 15, 7, 17, 6, 5, 8]),
        ("update", true, &[0, 2, 3, 15, 16, 4]),
        ("check-manifest", false, &[0, 12, 13, 14]),
        ("report", false, &[0, 12, 14]),
    ];
    for (operation, bits, refusals) in answers {
        for &refusal in refusals {
            assert!(has(operation, bits, refusal), "{operation} {refusal}");
        }
    }
}

/// What a refused call was lent is printed as it was: an image, an output or a
/// running hash; a segment is empty then, and a report has counted nothing.
#[test]
fn refused_calls_leave_their_bytes() {
    for (call, answer) in calls(&kept("stdout")) {
        let rest = answer[1..].join(" ");
        match call[0] {
            _ if answer[0] == "0" => {}
            "start" => assert_eq!(
                rest,
                format!("0 0 0 {} {}", "00".repeat(36), "00".repeat(16))
            ),
            "update" | "finish" => assert_eq!(rest, call[1..6].join(" ")),
            "segment" => assert_eq!(rest, "-"),
            "check-manifest" => assert_eq!(rest, ""),
            "report" => assert_eq!(rest, "0 0 0 0 0 0"),
            _ => assert_eq!(rest, *call.last().expect("words"), "{call:?}"),
        }
    }
}
