//! SPONGENT's rounds layer by layer, and the page that shows them.

mod generator;
mod hexadecimal;

use std::path::Path;

use generator::Generator;
use hexadecimal::bytes;
use wickslate_reference::spongent::{of_size, Direction, Spongent};
use wickslate_reference::{permute, rounds_page, unpermute, variant, Variant};

const SEED: u64 = 0x2919_2005_0534_0534;

/// The variants of SPONGENT and their rounds (Table 9).
const TABLE_9: [(u32, usize); 5] = [(6, 45), (7, 70), (8, 90), (9, 120), (10, 140)];

/// A value that is shown: where it stands, as `round 1, counter`, and its
/// bytes.
type Value = (String, String);

/// How the page names the rounds of one direction and the values of each, in
/// the order in which the program's lines have them.
struct Names {
    operation: &'static str,
    rounds: [&'static str; 3],
    values: [&'static str; 6],
}

const NAMES: [Names; 2] = [
    Names {
        operation: "round",
        rounds: ["round 1", "round 2", "round 3"],
        values: [
            "counter",
            "reversed",
            "before",
            "cAddition",
            "sBoxLayer",
            "pLayer",
        ],
    },
    Names {
        operation: "unround",
        rounds: ["round 45 back", "round 44 back", "round 43 back"],
        values: [
            "counter",
            "reversed",
            "before",
            "pLayer back",
            "sBoxLayer back",
            "cAddition",
        ],
    },
];

/// The text of a file, by its path from here.
fn text(path: &str) -> String {
    let path = Path::new(env!("CARGO_MANIFEST_DIR")).join(path);
    std::fs::read_to_string(&path).unwrap_or_else(|error| panic!("{}: {error}", path.display()))
}

/// The value of these digits; its bytes are kept in hexadecimal, for the
/// report of a failure.
fn value(round: &str, name: &str, digits: &str) -> Value {
    let place = format!("{round}, {name}");
    (place, format!("{:02x?}", bytes(digits)))
}

/// What stands between the two marker lines of the page.
fn part_of_page() -> String {
    let page = text("../docs/ROUNDS.md");
    let (_, rest) = page.split_once("\n<!-- rounds -->\n").expect("a marker");
    let (part, _) = rest.split_once("<!-- /rounds -->\n").expect("a marker");
    part.to_string()
}

/// The values that the page shows.
fn values_of_page() -> Vec<Value> {
    let mut values = Vec::new();
    let mut round = String::new();
    for line in part_of_page().lines() {
        if line.starts_with("round ") {
            let parts: Vec<&str> = line.split("   ").collect();
            round = parts[0].to_string();
            for part in &parts[1..] {
                let (name, digits) = part.split_once(' ').expect("a name and a value");
                values.push(value(&round, name, digits));
            }
        } else if !(line.is_empty() || line.starts_with("## ") || line.starts_with("```")) {
            let (name, digits) = line.split_at(16);
            values.push(value(&round, name.trim_end(), digits));
        }
    }
    values
}

/// The values of variant 6 that the proved program reads and prints. Panics
/// unless there are three rounds of each direction.
fn values_of_program() -> Vec<Value> {
    let printed = text("../crates/vectors/stdout");
    let mut values = Vec::new();
    for names in &NAMES {
        let front = format!("{} 6 ", names.operation);
        let lines: Vec<&str> = printed
            .lines()
            .filter_map(|line| line.strip_prefix(&front))
            .collect();
        assert_eq!(lines.len(), 3, "lines that begin with {front}");
        for (round, line) in names.rounds.iter().zip(lines) {
            let (given, told) = line.split_once(" -> 0 ").expect("a call that is done");
            let (counter, before) = given.split_once(' ').expect("a counter and a state");
            let (reversed, layers) = told.split_once(' ').expect("a counter and states");
            let mut digits = vec![counter, reversed, before];
            digits.extend(layers.split(' '));
            assert_eq!(digits.len(), 6, "{line}");
            for (name, digits) in names.values.iter().zip(digits) {
                values.push(value(round, name, digits));
            }
        }
    }
    values
}

#[test]
fn the_page_shows_what_is_printed() {
    assert_eq!(part_of_page(), rounds_page());
}

/// The page has three rounds of each direction and six values of each.
#[test]
fn the_page_shows_all_values_of_three_rounds_each_way() {
    let shown: Vec<String> = values_of_page()
        .into_iter()
        .map(|(place, _)| place)
        .collect();
    let places = |names: &Names| -> Vec<String> {
        let of_round = |round: &&str| names.values.map(|name| format!("{round}, {name}"));
        names.rounds.iter().flat_map(of_round).collect()
    };
    assert_eq!(
        shown,
        NAMES.iter().flat_map(places).collect::<Vec<String>>()
    );
}

/// What the proved program `vectors` prints is kept beside it.
#[test]
fn the_page_shows_the_values_of_the_proved_program() {
    let [shown, proved] = [values_of_page(), values_of_program()];
    assert_eq!(shown.len(), proved.len());
    for (shown, proved) in shown.iter().zip(&proved) {
        assert_eq!(shown, proved);
    }
}

/// Calls the function for each SPONGENT variant with its permutation, its
/// rounds and a random image.
fn for_each_variant(check: impl Fn(&'static Variant, &'static Spongent, usize, Vec<u8>)) {
    let mut generator = Generator::new(SEED);
    for (number, rounds) in TABLE_9 {
        let variant = variant(number).expect("a number from 6 to 10");
        let image = generator.bytes(variant.image_bytes());
        check(variant, of_size(variant.state_bits), rounds, image);
    }
}

/// The last layer of a round leaves the state before the next, and the last
/// round leaves what the permutation or its inverse gives.
#[test]
fn rounds_follow_each_other_to_the_end() {
    type Call = fn(u32, &mut [u8]) -> u8;
    let ways: [(Direction, Call); 2] =
        [(Direction::Forward, permute), (Direction::Back, unpermute)];
    for_each_variant(|variant, spongent, rounds, image| {
        for (direction, call) in ways {
            let place = format!("{}, {direction:?}", variant.name);
            let all = spongent.trace(direction, rounds, &image);
            assert_eq!(all.len(), rounds, "{place}");
            assert_eq!(all[..3], spongent.trace(direction, 3, &image), "{place}");
            assert_eq!(all, spongent.trace(direction, usize::MAX, &image));
            let mut state = image.clone();
            for round in all {
                assert_eq!(round.before, state, "{place}, round {}", round.number);
                [_, _, state] = round.layers;
            }
            let mut end = image.clone();
            assert_eq!(call(variant.number, &mut end), 0);
            assert_eq!(state, end, "{place}");
        }
    });
}

/// The inverse has the same rounds, each from its last state to its first.
#[test]
fn the_inverse_goes_through_the_same_states() {
    for_each_variant(|variant, spongent, rounds, image| {
        let forth = spongent.trace(Direction::Forward, rounds, &image);
        let back = spongent.trace(Direction::Back, rounds, &forth[rounds - 1].layers[2]);
        for (forth, back) in forth.iter().zip(back.iter().rev()) {
            let place = format!("{}, round {}", variant.name, forth.number);
            assert_eq!(back.number, forth.number, "{place}");
            assert_eq!(back.counter, forth.counter, "{place}");
            assert_eq!(back.reversed, forth.reversed, "{place}");
            let [added, replaced, moved] = &forth.layers;
            let [returned, restored, first] = &back.layers;
            let states = [&back.before, returned, restored, first];
            assert_eq!(states, [moved, replaced, added, &forth.before], "{place}");
        }
    });
}

#[test]
fn counters_are_added_to_the_first_and_the_last_byte() {
    for_each_variant(|variant, spongent, rounds, image| {
        for round in spongent.trace(Direction::Forward, rounds, &image) {
            let mut added = round.before;
            added[0] ^= round.counter;
            added[variant.image_bytes() - 1] ^= round.reversed;
            let number = round.number;
            assert_eq!(round.layers[0], added, "{}, round {number}", variant.name);
        }
    });
}

#[test]
fn the_counters_of_the_smallest_state_begin_as_known() {
    let rounds = of_size(88).trace(Direction::Forward, 5, &[0; 11]);
    let counters: Vec<[u8; 2]> = rounds
        .iter()
        .map(|round| [round.counter, round.reversed])
        .collect();
    let known = [
        [0x05, 0xa0],
        [0x0a, 0x50],
        [0x14, 0x28],
        [0x29, 0x94],
        [0x13, 0xc8],
    ];
    assert_eq!(counters, known);
}
