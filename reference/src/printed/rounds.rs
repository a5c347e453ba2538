//! The first rounds of SPONGENT's permutations, layer by layer, from the
//! images that Annex B.2 permutes, and of the inverses from the permuted
//! ones. States are printed as they lie in memory, the first byte first.

use std::fmt::Write;

use super::permutations::annex_b_image;
use super::{hexadecimal, spongent_variants, Cases};
use crate::permute;
use crate::spongent::{self, Direction, Round};
use crate::variants::{variant, Variant};

/// As many rounds are shown each way.
const SHOWN: usize = 3;

/// What is shown of one direction: the operation that its lines name, and on
/// the page its heading, what stands behind a round's number and the names
/// of the layers.
struct Way {
    direction: Direction,
    operation: &'static str,
    heading: &'static str,
    behind_number: &'static str,
    layers: [&'static str; 3],
}

const WAYS: [Way; 2] = [
    Way {
        direction: Direction::Forward,
        operation: "round",
        heading: "The permutation",
        behind_number: "",
        layers: ["cAddition", "sBoxLayer", "pLayer"],
    },
    Way {
        direction: Direction::Back,
        operation: "unround",
        heading: "The inverse",
        behind_number: " back",
        layers: ["pLayer back", "sBoxLayer back", "cAddition"],
    },
];

/// A line for each of the first rounds of each SPONGENT variant, both ways.
pub fn add(cases: &mut Cases) {
    cases.heading("SPONGENT round by round: counter and state; reversed counter and the state after each layer");
    for variant in spongent_variants() {
        for way in &WAYS {
            for round in first_rounds(variant, way.direction) {
                add_round(cases, way.operation, variant.number, &round);
            }
        }
    }
}

/// The first rounds of SPONGENT-88 and of its inverse in Markdown, for
/// `docs/ROUNDS.md`.
pub fn rounds_page() -> String {
    let variant = variant(6).expect("SPONGENT-88 is variant 6");
    WAYS.iter()
        .map(|way| {
            let rounds = first_rounds(variant, way.direction);
            let blocks: Vec<String> = rounds.iter().map(|round| block(way, round)).collect();
            format!("## {}\n\n```text\n{}```\n", way.heading, blocks.join("\n"))
        })
        .collect::<Vec<String>>()
        .join("\n")
}

/// The rounds that are shown of a variant in one direction. The inverse
/// begins where the permutation ends.
fn first_rounds(variant: &Variant, direction: Direction) -> Vec<Round> {
    let mut image = annex_b_image(variant);
    if direction == Direction::Back {
        permute(variant.number, &mut image);
    }
    spongent::of_size(variant.state_bits).trace(direction, SHOWN, &image)
}

/// One round: the counter and the state before it, then the reversed counter
/// and the states after its layers.
fn add_round(cases: &mut Cases, operation: &str, number: u32, round: &Round) {
    let [counter, reversed] = [round.counter, round.reversed];
    let before = hexadecimal(&round.before);
    let layers = round.layers.each_ref().map(|state| hexadecimal(state));
    let after = layers.join(" ");
    cases.add(
        format!("{operation} {number} {counter:02x} {before}"),
        format!("0 {reversed:02x} {after}"),
    );
}

/// One round on the page: its counters, and a line for each state.
fn block(way: &Way, round: &Round) -> String {
    let Round {
        number,
        counter,
        reversed,
        before,
        layers,
    } = round;
    let behind = way.behind_number;
    let mut block =
        format!("round {number}{behind}   counter {counter:02x}   reversed {reversed:02x}\n");
    let names = ["before"].iter().chain(&way.layers);
    for (name, state) in names.zip([before].into_iter().chain(layers)) {
        let bytes: Vec<String> = state.iter().map(|byte| format!("{byte:02x}")).collect();
        writeln!(block, "{name:<16}{}", bytes.join(" ")).expect("memory");
    }
    block
}
