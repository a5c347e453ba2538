//! The archive's speed beside the Rust version's, as tables.

use std::env;
use std::process::exit;
use std::time::Duration;

use wickslate_conformance::rows::{machine, print_head, print_row};
use wickslate_conformance::speed::{best, hash, message, of_one_call, of_pieces, Effort, Speed};
use wickslate_reference::{Family, Variant, VARIANTS};

const USAGE: &str = "\
usage: bench [--markdown] [--variants N,N..] [--bytes N,N..] [--pieces] [--repetitions N]

Prints ns per byte of the archive and of the Rust version and the ratio of
their times (above 1: the archive is faster), for messages of 16 B, 1 KiB,
64 KiB and 1 MiB; the same for 4 KiB in pieces of 16 B, from start to digest;
then ns per byte of the archive for growing messages, 64 KiB to 1 MiB.
--bytes gives other lengths and leaves the other tables out, --pieces prints
the table of pieces, alone or after that of --bytes. Each time is the best of
N repetitions or more, 3 if not given.";

/// The lengths of whole messages, and those of growing ones.
const LENGTHS: [usize; 4] = [16, 1 << 10, 1 << 16, 1 << 20];
const GROWING: [usize; 3] = [1 << 16, 1 << 18, 1 << 20];

/// The length of the message that is cut, and of its pieces.
const CUT: usize = 1 << 12;
const PIECE: usize = 16;

/// How long repetitions go on at the least.
const TIME: Duration = Duration::from_millis(400);

struct Wish {
    markdown: bool,
    variants: Vec<&'static Variant>,
    lengths: Option<Vec<usize>>,
    pieces: bool,
    effort: Effort,
}

fn main() {
    let wish = wish(env::args().skip(1)).unwrap_or_else(|complaint| {
        eprintln!("bench: {complaint}\n\n{USAGE}");
        exit(2);
    });
    println!("{}", machine());
    let all = wish.lengths.is_none() && !wish.pieces;
    if all || wish.lengths.is_some() {
        print_speeds(&wish);
    }
    if all || wish.pieces {
        print_pieces(&wish);
    }
    if all {
        print_growth(&wish);
    }
}

fn wish(mut words: impl Iterator<Item = String>) -> Result<Wish, String> {
    let mut wish = Wish {
        markdown: false,
        variants: VARIANTS.iter().collect(),
        lengths: None,
        pieces: false,
        effort: Effort {
            repetitions: 3,
            time: TIME,
        },
    };
    while let Some(word) = words.next() {
        let mut given = || numbers(&words.next().ok_or(format!("{word} needs a number"))?);
        match word.as_str() {
            "--markdown" => wish.markdown = true,
            "--pieces" => wish.pieces = true,
            "--variants" => wish.variants = with_numbers(&given()?)?,
            "--bytes" => wish.lengths = Some(given()?),
            "--repetitions" => wish.effort.repetitions = given()?[0].max(1),
            _ => return Err(format!("{word} is not known")),
        }
    }
    Ok(wish)
}

fn numbers(text: &str) -> Result<Vec<usize>, String> {
    text.split(',')
        .map(|number| number.parse().map_err(|_| format!("{number} is no number")))
        .collect()
}

fn with_numbers(numbers: &[usize]) -> Result<Vec<&'static Variant>, String> {
    let with = |&number: &usize| {
        let found = VARIANTS.iter().find(|v| v.number as usize == number);
        found.ok_or(format!("{number} is no variant"))
    };
    numbers.iter().map(with).collect()
}

fn print_speeds(wish: &Wish) {
    let lengths = wish.lengths.as_deref().unwrap_or(&LENGTHS);
    let head = lengths.iter().flat_map(|&bytes| columns(&size(bytes)));
    begin_table(wish, head);
    for variant in &wish.variants {
        let mut row = vec![name(variant)];
        for &bytes in lengths {
            row.extend(cells(of_one_call(variant, &message(bytes), wish.effort)));
        }
        print_row(wish.markdown, &row);
    }
}

fn print_pieces(wish: &Wish) {
    begin_table(wish, columns("pieces"));
    for variant in &wish.variants {
        let mut row = vec![name(variant)];
        row.extend(cells(of_pieces(variant, &message(CUT), PIECE, wish.effort)));
        print_row(wish.markdown, &row);
    }
}

/// The names of the columns after the variant's, below an empty line.
fn begin_table(wish: &Wish, columns: impl IntoIterator<Item = String>) {
    println!();
    let mut head = vec!["Variant".to_string()];
    head.extend(columns);
    print_head(wish.markdown, &head);
}

/// The names of the three columns of a speed, and what stands in them.
fn columns(of: &str) -> [String; 3] {
    [format!("{of}: archive"), "Rust".into(), "ratio".into()]
}

fn cells(speed: Speed) -> [String; 3] {
    let [archive, rust] = [speed.archive, speed.rust].map(|time| format!("{time:.0}"));
    [archive, rust, format!("{:.2}", speed.ratio())]
}

fn print_growth(wish: &Wish) {
    let last = "last / first".to_string();
    begin_table(wish, GROWING.map(size).into_iter().chain([last]));
    for variant in &wish.variants {
        let times = growth(variant, wish.effort);
        let mut row = vec![name(variant)];
        row.extend(times.map(|time| format!("{time:.0}")));
        row.push(format!("{:.2}", times[GROWING.len() - 1] / times[0]));
        print_row(wish.markdown, &row);
    }
}

fn name(variant: &Variant) -> String {
    let name = match variant.family {
        Family::LesamntaLw => "Lesamnta-LW".to_string(),
        Family::Photon | Family::Spongent => variant.name.to_uppercase(),
    };
    format!("{} {name}", variant.number)
}

fn size(bytes: usize) -> String {
    match bytes {
        _ if bytes.is_multiple_of(1 << 20) => format!("{} MiB", bytes >> 20),
        _ if bytes.is_multiple_of(1 << 10) => format!("{} KiB", bytes >> 10),
        _ => format!("{bytes} B"),
    }
}

/// Nanoseconds per byte of the archive for growing messages. Each time is that
/// of as many bytes, in more messages or fewer, so that all have their share of
/// the machine's noise.
fn growth(variant: &Variant, effort: Effort) -> [f64; GROWING.len()] {
    let all = message(GROWING[GROWING.len() - 1]);
    let mut calls = GROWING.map(|bytes| {
        let messages = all.chunks(bytes);
        move || {
            messages
                .clone()
                .for_each(|message| hash(variant, message, &mut [0; 32]))
        }
    });
    let calls = calls.each_mut().map(|call| call as &mut dyn FnMut());
    best(calls, effort).map(|time| time / all.len() as f64)
}
