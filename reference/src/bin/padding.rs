//! Prints the SPONGENT digests of Annex B.2's message with either padding.

fn main() {
    print!("{}", wickslate_reference::padding_table());
}
