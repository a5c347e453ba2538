//! Hashes a file in pieces of 64 bytes and keeps its end state. Then a block
//! of the file is spoilt, which shows in its end state, and is found again
//! from the end state that was kept.
//!
//!     lost_block FILE
//!
//! The end state is kept and not the digest: that one changed block always
//! shows is proved of end states, and two of them may have the same digest.
//!
//! Exit status: 0; 1 the file cannot be read or is refused; 2 wrong arguments.

use std::env;
use std::error::Error;
use std::fs::{self, File};
use std::io::Read;
use std::path::Path;
use std::process::ExitCode;

// One file with the types and the calls of the archive: take it along.
#[allow(dead_code)]
#[path = "../conformance/src/wickslate.rs"]
mod wickslate;

use wickslate::{Answer, Hasher};

/// PHOTON-256 and its sizes in bytes.
const VARIANT: u32 = 4;
const IMAGE_BYTES: usize = 32;
const BLOCK_BYTES: usize = 4;

/// What [`wickslate::hash`] is asked for.
const END_STATE: u32 = 1;

/// The block that is spoilt.
const PLACE: usize = 12;

/// Makes an answer a result.
fn done(call: &str, answer: Answer) -> Result<(), String> {
    match answer.number() {
        0 => Ok(()),
        refusal => Err(format!("{call}: refused {refusal}")),
    }
}

fn print_bytes(name: &str, bytes: &[u8]) {
    let digits: String = bytes.iter().map(|byte| format!("{byte:02x}")).collect();
    println!("{name} {digits}");
}

/// Takes the file to its end, in pieces, and gives its end state.
fn end_state_of_file(path: &Path) -> Result<[u8; IMAGE_BYTES], Box<dyn Error>> {
    let mut file = File::open(path)?;
    let mut h = Hasher::default();
    done("start", wickslate::start(&mut h, VARIANT))?;
    let mut piece = [0; 64];
    loop {
        let got = file.read(&mut piece)?;
        if got == 0 {
            break;
        }
        done("update", wickslate::update(&mut h, &piece[..got]))?;
    }
    done("finish", wickslate::finish(&mut h))?;
    let mut image = [0; IMAGE_BYTES];
    done("end state", wickslate::end_state(&h, &mut image))?;
    Ok(image)
}

/// The end state of a message in one call.
fn end_state(message: &[u8]) -> Result<[u8; IMAGE_BYTES], String> {
    let mut image = [0; IMAGE_BYTES];
    let answer = wickslate::hash(VARIANT, message, END_STATE, &mut image);
    done("hash", answer)?;
    Ok(image)
}

/// The block at a place of a message that ended in this state. What the
/// message has there has no effect.
fn lost_block(message: &[u8], place: usize, image: &[u8]) -> Result<[u8; BLOCK_BYTES], String> {
    let mut block = [0; BLOCK_BYTES];
    let answer = wickslate::recover(VARIANT, message, place, image, &mut block);
    done("recover", answer)?;
    Ok(block)
}

fn run(path: &Path) -> Result<(), Box<dyn Error>> {
    let kept = end_state_of_file(path)?;
    print_bytes("end state", &kept);

    let mut message = fs::read(path)?;
    let bytes = PLACE * BLOCK_BYTES..(PLACE + 1) * BLOCK_BYTES;
    let spoilt = message.get_mut(bytes.clone());
    let spoilt = spoilt.ok_or("the file has no such block")?;
    spoilt.iter_mut().for_each(|byte| *byte ^= 0xff);
    if end_state(&message)? != kept {
        println!("block {PLACE} spoilt: a different end state");
    }

    let block = lost_block(&message, PLACE, &kept)?;
    print_bytes("found", &block);
    message[bytes].copy_from_slice(&block);
    if end_state(&message)? == kept {
        println!("block {PLACE} mended: the end state that was kept");
    }
    Ok(())
}

fn main() -> ExitCode {
    let words: Vec<_> = env::args_os().skip(1).collect();
    let [path] = words.as_slice() else {
        eprintln!("usage: lost_block FILE");
        return ExitCode::from(2);
    };
    match run(Path::new(path)) {
        Ok(()) => ExitCode::SUCCESS,
        Err(error) => {
            eprintln!("lost_block: {}: {error}", path.display());
            ExitCode::FAILURE
        }
    }
}
