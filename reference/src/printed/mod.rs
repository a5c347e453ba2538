//! What the programs read and print. The program `vectors` reads calls, one a
//! line, `OP VARIANT ARGUMENT ..`, and prints each line with its answer,
//! `OP VARIANT ARGUMENT .. -> STATUS RESULT ..`. Bytes are in hexadecimal as
//! they lie in memory, with a dash for none; all other numbers are in decimal,
//! but for counters and the words of Lesamnta-LW. An output is given as its
//! bytes before the call. A line that begins with # is a heading.

mod bits;
mod cipher;
mod lists;
mod lost;
mod permutations;
mod reports;
mod rounds;
mod running;
mod whole;

use std::fmt::Write;

use crate::digest_with;
use crate::padding::Padding;
use crate::segments::Refusal;
use crate::variants::{Family, Variant, VARIANTS};

pub use rounds::rounds_page;

/// The message of the examples of Annex B.1.
const PHOTON_MESSAGE: &[u8] = b"The PHOTON Lightweight Hash Functions Family";

/// The message of the examples of Annex B.2.
const SPONGENT_MESSAGE: &[u8] = b"Sponge + Present = Spongent";

/// The message of the example of Annex B.3.
const LESAMNTA_MESSAGE: &[u8] = b"abc";

/// Lesamnta-LW.
const LESAMNTA_LW: u32 = 11;

/// The cases of the program `vectors`: headings, and calls with their answers.
#[derive(Default)]
pub struct Cases(Vec<Line>);

enum Line {
    Heading(&'static str),
    Call { call: String, answer: String },
}

impl Cases {
    /// What the program reads.
    pub fn input(&self) -> String {
        let line = |line: &Line| match line {
            Line::Heading(text) => format!("# {text}\n"),
            Line::Call { call, .. } => format!("{call}\n"),
        };
        self.0.iter().map(line).collect()
    }

    /// What it prints.
    pub fn output(&self) -> String {
        let line = |line: &Line| match line {
            Line::Heading(text) => format!("# {text}\n"),
            Line::Call { call, answer } => format!("{call} -> {answer}\n"),
        };
        self.0.iter().map(line).collect()
    }

    fn heading(&mut self, text: &'static str) {
        self.0.push(Line::Heading(text));
    }

    fn add(&mut self, call: String, answer: String) {
        self.0.push(Line::Call { call, answer });
    }
}

/// Every case of the program `vectors`.
pub fn cases() -> Cases {
    let mut cases = Cases::default();
    permutations::add(&mut cases);
    rounds::add(&mut cases);
    cipher::add(&mut cases);
    whole::add(&mut cases);
    running::add(&mut cases);
    lists::add(&mut cases);
    lost::add(&mut cases);
    bits::add(&mut cases);
    reports::add(&mut cases);
    cases
}

/// For each SPONGENT example of Annex B.2, the digest with either padding.
pub fn padding_table() -> String {
    let mut table = String::from("clause  variant       byte  digest\n");
    for (variant, clause) in spongent_variants().zip(2..) {
        for (byte, padding) in [("80", Padding::NextBit), ("01", Padding::LowestFreeBit)] {
            let digest = digest_with(variant.number, padding, SPONGENT_MESSAGE)
                .expect("the variant exists and the message is short");
            let name = variant.name;
            let digest = hexadecimal(&digest);
            writeln!(table, "B.2.{clause}   {name:<12}  {byte}    {digest}").expect("memory");
        }
    }
    table
}

/// The variants of SPONGENT, in the order of their numbers.
fn spongent_variants() -> impl Iterator<Item = &'static Variant> {
    VARIANTS
        .iter()
        .filter(|variant| variant.family == Family::Spongent)
}

/// The message of the variant's example in Annex B.
fn annex_b_message(variant: &Variant) -> &'static [u8] {
    match variant.family {
        Family::Photon => PHOTON_MESSAGE,
        Family::Spongent => SPONGENT_MESSAGE,
        Family::LesamntaLw => LESAMNTA_MESSAGE,
    }
}

/// The bytes of a digest, or of an end state's image.
fn size(variant: &Variant, image: bool) -> usize {
    match image {
        true => variant.image_bytes(),
        false => variant.digest_bytes(),
    }
}

/// The operation that gives a digest or an end state.
fn name(image: bool) -> &'static str {
    match image {
        true => "end-state",
        false => "digest",
    }
}

/// An output before a call: so many bytes a0.
fn lent(bytes: usize) -> Vec<u8> {
    vec![0xa0; bytes]
}

/// The number of a refusal, with the entry that 10 and 11 name.
fn status<T>(answer: &Result<T, Refusal>) -> String {
    match answer {
        Ok(_) => String::from("0"),
        Err((number, None)) => number.to_string(),
        Err((number, Some(entry))) => format!("{number}@{entry}"),
    }
}

/// Bytes in lower-case hexadecimal, the first byte first. A single dash
/// stands for no bytes.
fn hexadecimal(bytes: &[u8]) -> String {
    if bytes.is_empty() {
        return String::from("-");
    }
    bytes.iter().map(|byte| format!("{byte:02x}")).collect()
}
