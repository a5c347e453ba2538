//! What the environment asks of the tests.

use std::env;
use std::io::Write;
use std::sync::OnceLock;
use std::time::{Duration, SystemTime, UNIX_EPOCH};

/// The seed of every random input: `WICKSLATE_SEED`, or else the clock. The
/// first use prints it, past the capture of the tests' output.
pub fn seed() -> u64 {
    static SEED: OnceLock<u64> = OnceLock::new();
    *SEED.get_or_init(|| {
        let seed = number("WICKSLATE_SEED").unwrap_or_else(clock);
        writeln!(std::io::stderr(), "WICKSLATE_SEED={seed:#x}").expect("standard error");
        seed
    })
}

/// How long the random calls go on, if `WICKSLATE_MINUTES` says so.
pub fn minutes() -> Option<Duration> {
    let minutes = number("WICKSLATE_MINUTES").filter(|&minutes| minutes > 0);
    minutes.map(|minutes| Duration::from_secs(60 * minutes))
}

/// The usual amount of work, or the small one if `WICKSLATE_SHORT` is set:
/// under valgrind everything takes some fifty times as long.
pub fn amount(usual: usize, small: usize) -> usize {
    match env::var_os("WICKSLATE_SHORT") {
        None => usual,
        Some(_) => small,
    }
}

fn clock() -> u64 {
    let since = SystemTime::now().duration_since(UNIX_EPOCH);
    since.expect("a clock past 1970").as_nanos() as u64
}

/// The number in a variable, decimal or hexadecimal after 0x.
fn number(variable: &str) -> Option<u64> {
    let text = env::var(variable).ok()?;
    let number = match text.strip_prefix("0x") {
        Some(digits) => u64::from_str_radix(digits, 16),
        None => text.parse(),
    };
    Some(number.unwrap_or_else(|_| panic!("{variable}={text} is not a number")))
}
