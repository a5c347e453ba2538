//! Prints the first rounds of SPONGENT-88 and of its inverse, as
//! `docs/ROUNDS.md` shows them.

fn main() {
    print!("{}", wickslate_reference::rounds_page());
}
