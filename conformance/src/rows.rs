//! What the measuring programs print: rows of cells, for a terminal or as
//! Markdown, and the machine that was measured.

use std::fs;
use std::thread::available_parallelism;

/// The processor's model and how many there are.
pub fn machine() -> String {
    let about = fs::read_to_string("/proc/cpuinfo").unwrap_or_default();
    let model = about
        .lines()
        .find_map(|line| line.strip_prefix("model name")?.split_once(": "))
        .map_or("unknown processor", |(_, model)| model);
    let cores = available_parallelism().map_or(0, usize::from);
    format!("{model}, {cores} cores")
}

/// The names of the columns.
pub fn print_head(markdown: bool, cells: &[String]) {
    print_row(markdown, cells);
    if markdown {
        println!("|---{}|", "|--:".repeat(cells.len() - 1));
    }
}

/// A row, of which the first cell is a name.
pub fn print_row(markdown: bool, cells: &[String]) {
    if markdown {
        println!("| {} |", cells.join(" | "));
        return;
    }
    let (first, rest) = cells.split_first().expect("a name");
    let rest: String = rest.iter().map(|cell| format!("{cell:>16}")).collect();
    println!("{first:<16}{rest}");
}
