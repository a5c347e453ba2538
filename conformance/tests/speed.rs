//! The archive is as much faster than the Rust version as its look-ups make
//! it. They are fast only if the compiler inlines the functions of a round;
//! past its limit for that it says nothing, and hashing takes four to eight
//! times as long. No other test would see it.
//!
//! Both sides hash one message, in alternation, on this thread's processor time, and
//! the best of each counts: other work on the machine troubles both alike.
//! `cargo test --release --test speed -- --nocapture` prints the ratios.

use std::time::Duration;

use wickslate_conformance::speed::{message, of_one_call, Effort};
use wickslate_reference::{Family, Variant, VARIANTS};

const EFFORT: Effort = Effort {
    repetitions: 5,
    time: Duration::from_millis(200),
};

/// The bytes of the message, and how many times as fast as the Rust version
/// the archive is at the least.
///
/// Measured with rustc 1.95.0: by look-ups PHOTON has ratios of 17 to 26 on an
/// Intel Xeon and of 15 to 24 on an AMD EPYC, and SPONGENT of 6.4 to 6.9 and,
/// with its counters stepped, of 6.1 to 8.7. With the inlining held back they
/// were 2.8 to 3.6 (PHOTON-288 did not need it) and 1.4 to 1.7, and by plain
/// steps 1.4 to 2.4 and 1.3 to 2.0. The limits lie between, a factor of two or
/// more below the first. Lesamnta-LW has ratios of 12 to 13 on an Intel Xeon
/// and of 9.1 to 9.6 on an AMD EPYC, and a limit of about half the last; what it
/// has without the inlining was not measured. A Rust version that is made faster
/// asks for others.
fn limit(variant: &Variant) -> (usize, f64) {
    match variant.family {
        Family::Photon => (4 << 10, 7.0),
        Family::Spongent => (1 << 10, 3.0),
        Family::LesamntaLw => (4 << 10, 5.0),
    }
}

#[test]
#[cfg_attr(
    debug_assertions,
    ignore = "the Rust version is not optimised, and would be far too slow: run with --release"
)]
fn look_ups_are_as_fast_as_they_should_be() {
    let mut slow = Vec::new();
    for variant in &VARIANTS {
        let (bytes, least) = limit(variant);
        let ratio = of_one_call(variant, &message(bytes), EFFORT).ratio();
        let line = format!("{}: {ratio:.2}, at least {least}", variant.name);
        println!("{line}");
        if ratio < least {
            slow.push(line);
        }
    }
    assert!(
        slow.is_empty(),
        "times as fast as the Rust version: {slow:#?}"
    );
}
