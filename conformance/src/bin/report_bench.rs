//! The time and the memory of the program `report`: for tables that it hashes
//! beside `digest`, which hashes as many bytes, and for others beside `cat`,
//! which only reads them. All is fed through a pipe.

use std::env;
use std::ffi::{c_int, c_long};
use std::fs;
use std::io::{Read, Write};
use std::process::{exit, Child, Command};
use std::time::Duration;

use wickslate_conformance::chains::hexadecimal;
use wickslate_conformance::make::{header, record};
use wickslate_conformance::programs::{peak, program, root, started};
use wickslate_conformance::rows::{machine, print_head, print_row};
use wickslate_conformance::wickslate;
use wickslate_reference::manifest::TABLE_LIMIT;
use wickslate_reference::{Variant, MESSAGE_LIMIT, VARIANTS};

const USAGE: &str = "\
usage: report_bench [--markdown] [--repetitions N]

Prints for `report` over 64 MiB of listed tables, over 256 MiB of others and over
65,535 empty ones of either kind: its time, how that compares with the time of
`digest` and of `cat` over as many bytes (above 1: report takes longer), and its
maximum memory. Times are the processor's, with what the system does for
the program, and the best of N repetitions, 3 if not given. A repetition takes
some seconds.";

/// The sponge that takes the least time for a byte.
const FAST: &Variant = &VARIANTS[4];

/// Three axes that are listed, after all others, and one that is not. The table
/// of one of them has no bytes.
const LONG: u16 = 509;
const SHORT: u16 = 510;
const EMPTY: u16 = 511;
const OTHER: u16 = 512;

/// The bytes of a short table.
const SHORT_BYTES: usize = 1 << 16;

/// A program over `count` tables, and the row that it is compared with.
struct Row {
    name: &'static str,
    run: fn(&Row, &[u8]) -> Run,
    axis: u16,
    count: usize,
    bytes: usize,
    beside: Option<usize>,
}

const ROWS: [Row; 8] = [
    Row {
        name: "digest",
        run: digest,
        axis: LONG,
        count: 4,
        bytes: MESSAGE_LIMIT,
        beside: None,
    },
    Row {
        name: "report, listed",
        run: report,
        axis: LONG,
        count: 4,
        bytes: MESSAGE_LIMIT,
        beside: Some(0),
    },
    Row {
        name: "report, listed",
        run: report,
        axis: SHORT,
        count: 1 << 10,
        bytes: SHORT_BYTES,
        beside: Some(0),
    },
    Row {
        name: "cat",
        run: cat,
        axis: OTHER,
        count: 16,
        bytes: MESSAGE_LIMIT + 1,
        beside: None,
    },
    Row {
        name: "report, other",
        run: report,
        axis: OTHER,
        count: 16,
        bytes: MESSAGE_LIMIT + 1,
        beside: Some(3),
    },
    Row {
        name: "report, other",
        run: report,
        axis: OTHER,
        count: 1 << 12,
        bytes: SHORT_BYTES,
        beside: Some(3),
    },
    Row {
        name: "report, listed",
        run: report,
        axis: EMPTY,
        count: TABLE_LIMIT,
        bytes: 0,
        beside: None,
    },
    Row {
        name: "report, other",
        run: report,
        axis: OTHER,
        count: TABLE_LIMIT,
        bytes: 0,
        beside: None,
    },
];

/// The time and the maximum memory, in KiB, of a program, and what it printed.
struct Run {
    time: Duration,
    peak: usize,
    printed: String,
}

fn main() {
    let (markdown, repetitions) = wish(env::args().skip(1)).unwrap_or_else(|complaint| {
        eprintln!("report_bench: {complaint}\n\n{USAGE}");
        exit(2);
    });
    println!("{}, {}\n", machine(), FAST.name);
    let contents = vec![0x31; MESSAGE_LIMIT + 1];
    write_manifest(&contents);
    let mut best = ROWS.map(|_| (Duration::MAX, 0));
    for _ in 0..repetitions {
        for (row, (time, peak)) in ROWS.iter().zip(&mut best) {
            let run = (row.run)(row, &contents[..row.bytes]);
            *time = run.time.min(*time);
            *peak = run.peak.max(*peak);
        }
    }
    print(markdown, &best);
}

fn wish(mut words: impl Iterator<Item = String>) -> Result<(bool, usize), String> {
    let (mut markdown, mut repetitions) = (false, 3);
    while let Some(word) = words.next() {
        match word.as_str() {
            "--markdown" => markdown = true,
            "--repetitions" => {
                let number = words.next().and_then(|number| number.parse().ok());
                repetitions = number.filter(|&n| n > 0).ok_or("how many repetitions?")?;
            }
            _ => return Err(format!("{word} is not known")),
        }
    }
    Ok((markdown, repetitions))
}

fn print(markdown: bool, best: &[(Duration, usize)]) {
    let head = [
        "Program",
        "tables",
        "bytes of each",
        "ms",
        "ns per byte",
        "ratio",
        "max KiB",
    ];
    print_head(markdown, &head.map(String::from));
    let per_byte = |k: usize| {
        let bytes = (ROWS[k].count * ROWS[k].bytes) as f64;
        best[k].0.as_nanos() as f64 / bytes
    };
    for (k, (row, (time, peak))) in ROWS.iter().zip(best).enumerate() {
        let ratio = row.beside.map(|other| per_byte(k) / per_byte(other));
        let none = String::from("-");
        print_row(
            markdown,
            &[
                row.name.to_string(),
                row.count.to_string(),
                row.bytes.to_string(),
                time.as_millis().to_string(),
                match row.bytes {
                    0 => none.clone(),
                    _ => format!("{:.2}", per_byte(k)),
                },
                ratio.map_or(none, |ratio| format!("{ratio:.3}")),
                peak.to_string(),
            ],
        );
    }
}

/// 512 records, among which an axis is looked for by bisection.
fn write_manifest(contents: &[u8]) {
    let listed = |(axis, bytes): (u16, usize)| {
        let digest = digest_of(&contents[..bytes]);
        record(axis, FAST.number as u8, &digest)
    };
    let others = (0..LONG).flat_map(|axis| record(axis, 1, b""));
    let tables = [(LONG, MESSAGE_LIMIT), (SHORT, SHORT_BYTES), (EMPTY, 0)];
    let list: Vec<u8> = others.chain(tables.into_iter().flat_map(listed)).collect();
    let folder = root().join("target/report_bench");
    fs::create_dir_all(&folder).expect("a folder to make");
    fs::write(folder.join("rig"), list).expect("a file to write");
}

fn digest_of(contents: &[u8]) -> Vec<u8> {
    let mut digest = vec![0; FAST.digest_bytes()];
    assert!(wickslate::hash(FAST.number, contents, 0, &mut digest).is_done());
    digest
}

/// All tables at once; their counts are compared.
fn report(row: &Row, contents: &[u8]) -> Run {
    let mut command = program("report");
    command.current_dir(root().join("target/report_bench"));
    let run = over_tables(command, row, contents);
    let Row { axis, count, .. } = row;
    let expected = match *axis {
        OTHER => format!("\ntables {count}\nequal 0\nunequal 0\nuntold 512\nunlisted {count}\n"),
        _ => format!("\ntables {count}\nequal {count}\nunequal 0\nuntold 511\nunlisted 0\n"),
    };
    let printed = &run.printed;
    assert_eq!(printed.strip_prefix("listed 512"), Some(expected.as_str()));
    run
}

/// The same bytes, read and thrown away.
fn cat(row: &Row, contents: &[u8]) -> Run {
    let mut command = Command::new("sh");
    command.args(["-c", "exec cat > /dev/null"]);
    over_tables(command, row, contents)
}

fn over_tables(command: Command, row: &Row, contents: &[u8]) -> Run {
    let header = header(row.axis, contents.len() as u32);
    measured(command, row.count, [&header, contents])
}

/// One message after the other, each by a program of its own.
fn digest(row: &Row, contents: &[u8]) -> Run {
    let line = format!("{}\n", hexadecimal(&digest_of(contents)));
    let runs = (0..row.count).map(|_| {
        let run = measured(program("digest"), 1, [&[FAST.number as u8], contents]);
        assert_eq!(run.printed, line);
        run
    });
    runs.reduce(|all, run| Run {
        time: all.time + run.time,
        peak: all.peak.max(run.peak),
        printed: run.printed,
    })
    .expect("a message")
}

/// Runs a command and feeds it these two pieces `count` times. Its memory is
/// read when it has read all but what the pipe still holds and the last byte,
/// which it waits for: a report ends by itself after the last table that it
/// reads.
fn measured(command: Command, count: usize, pieces: [&[u8]; 2]) -> Run {
    let (mut child, mut pipe) = started(command);
    let mut write = |bytes: &[u8]| pipe.write_all(bytes).expect("a program that reads");
    for _ in 1..count {
        pieces.into_iter().for_each(&mut write);
    }
    let once = pieces.concat();
    let (front, last) = once.split_at(once.len() - 1);
    write(front);
    let peak = peak(&child);
    write(last);
    drop(pipe);
    let mut printed = String::new();
    let mut out = child.stdout.take().expect("a pipe");
    out.read_to_string(&mut printed).expect("text");
    let time = processor_time(child);
    Run {
        time,
        peak,
        printed,
    }
}

/// Waits for a program's end: the time that the processor has spent on it.
fn processor_time(child: Child) -> Duration {
    // Two times, of seconds and microseconds each, and fourteen numbers.
    type Usage = [c_long; 18];
    extern "C" {
        fn wait4(id: c_int, status: *mut c_int, options: c_int, usage: *mut Usage) -> c_int;
    }
    let id = child.id() as c_int;
    let (mut status, mut usage) = (0, [0; 18]);
    // SAFETY: both can be written, and nobody else waits for this program.
    let ended = unsafe { wait4(id, &mut status, 0, &mut usage) };
    assert_eq!((ended, status), (id, 0), "no sound end");
    let [user, user_part, system, system_part, ..] = usage.map(|number| number as u64);
    Duration::from_secs(user + system) + Duration::from_micros(user_part + system_part)
}
