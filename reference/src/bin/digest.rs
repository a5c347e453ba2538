//! Reads a variant byte and then a message from standard input, and prints
//! the digest or the refusal, as the proved program does. It holds the whole
//! message; it is there to be compared with.

use std::io::{self, Read};

use wickslate_reference::{digest, UNKNOWN_VARIANT};

fn main() -> io::Result<()> {
    let mut input = Vec::new();
    io::stdin().lock().read_to_end(&mut input)?;
    let answer = match input.split_first() {
        Some((&number, message)) => digest(number.into(), message),
        None => Err(UNKNOWN_VARIANT),
    };
    match answer {
        Ok(bytes) => {
            let digits: String = bytes.iter().map(|byte| format!("{byte:02x}")).collect();
            println!("{digits}");
        }
        Err(refusal) => println!("refused {refusal}"),
    }
    Ok(())
}
