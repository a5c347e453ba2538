//! The programs and the scripts around them, run as a user runs them.

use std::fs;
use std::io::Write;
use std::path::{Path, PathBuf};
use std::process::{Child, ChildStdin, Command, Output, Stdio};
use std::thread;

/// The folder that everything is in.
pub fn root() -> PathBuf {
    Path::new(env!("CARGO_MANIFEST_DIR")).join("..")
}

/// A program that `scripts/build` builds.
pub fn program(name: &str) -> Command {
    let path = root().join("target/bin").join(name);
    assert!(
        path.exists(),
        "no target/bin/{name}: run `scripts/build {name}` in the folder above"
    );
    Command::new(path)
}

/// Starts a command over a pipe.
pub fn started(mut command: Command) -> (Child, ChildStdin) {
    let mut child = command
        .stdin(Stdio::piped())
        .stdout(Stdio::piped())
        .stderr(Stdio::piped())
        .spawn()
        .expect("a program to run");
    let pipe = child.stdin.take().expect("a pipe");
    (child, pipe)
}

/// Runs a command over a pipe that brings these pieces. A command that has
/// read enough may end before the last one.
pub fn fed(command: Command, pieces: Vec<Vec<u8>>) -> Output {
    let (child, mut pipe) = started(command);
    let feeder = thread::spawn(move || {
        for piece in pieces {
            if pipe.write_all(&piece).is_err() {
                return;
            }
        }
    });
    let output = child.wait_with_output().expect("an end");
    feeder.join().expect("no panic");
    output
}

/// The maximum memory that a program which still runs has had so far, in KiB.
pub fn peak(child: &Child) -> usize {
    let path = format!("/proc/{}/status", child.id());
    let status = fs::read_to_string(path).expect("a program that runs");
    let line = status
        .lines()
        .find_map(|line| line.strip_prefix("VmHWM:"))
        .expect("its memory");
    let number = line.split_whitespace().next().expect("a number");
    number.parse().expect("a number")
}

/// Expects exactly this of an end: the status and both outputs.
pub fn expect(output: &Output, status: i32, out: &str, err: &str) {
    let texts = [&output.stdout, &output.stderr].map(|text| String::from_utf8_lossy(text));
    let given = (output.status.code(), texts[0].as_ref(), texts[1].as_ref());
    assert_eq!(given, (Some(status), out, err));
}
