//! Times of the archive beside those of the Rust version: the same work on both
//! sides, in alternation, and the best of several repetitions of each. Times are the
//! processor's for this thread, so that other work on the machine counts less.

use std::ffi::{c_int, c_long};
use std::time::Duration;

use wickslate_reference::{digest, running, Variant};

use crate::wickslate::{self, Hasher};

/// The least time of a repetition, so that a clock's step does not show.
const LEAST: Duration = Duration::from_millis(2);

/// How much is repeated: a least number of times and a least time, so that
/// short work is repeated more often.
#[derive(Clone, Copy)]
pub struct Effort {
    /// The repetitions, at the least.
    pub repetitions: usize,
    /// The time of all of them, at the least.
    pub time: Duration,
}

/// Nanoseconds per byte of both sides.
pub struct Speed {
    /// The archive's.
    pub archive: f64,
    /// The Rust version's.
    pub rust: f64,
}

impl Speed {
    /// The Rust version's time over the archive's.
    pub fn ratio(&self) -> f64 {
        self.rust / self.archive
    }
}

/// Some bytes; their values make no difference to the time.
pub fn message(bytes: usize) -> Vec<u8> {
    (0..bytes).map(|place| (place % 251) as u8).collect()
}

/// A message in one call of the archive: its digest.
pub fn hash(variant: &Variant, message: &[u8], out: &mut [u8]) {
    assert!(wickslate::hash(variant.number, message, 0, out).is_done());
}

/// A message in one call.
pub fn of_one_call(variant: &Variant, message: &[u8], effort: Effort) -> Speed {
    speed(
        variant,
        message,
        |out| hash(variant, message, out),
        |out| out.copy_from_slice(&digest(variant.number, message).expect("a short message")),
        effort,
    )
}

/// A message in pieces of `bytes` bytes, on both sides through a running hash.
pub fn of_pieces(variant: &Variant, message: &[u8], bytes: usize, effort: Effort) -> Speed {
    speed(
        variant,
        message,
        |out| {
            let mut h = Hasher::default();
            assert!(wickslate::start(&mut h, variant.number).is_done());
            for piece in message.chunks(bytes) {
                assert!(wickslate::update(&mut h, piece).is_done());
            }
            assert!(wickslate::finish(&mut h).is_done());
            assert!(wickslate::digest(&h, out).is_done());
        },
        |out| {
            let (_, mut h) = running::start(variant.number);
            for piece in message.chunks(bytes) {
                (_, h) = h.update(piece);
            }
            (_, h) = h.finish();
            assert_eq!(h.read(false, out), 0);
        },
        effort,
    )
}

/// Nanoseconds per byte of two ways to one digest, which take turns.
fn speed(
    variant: &Variant,
    message: &[u8],
    archive: impl Fn(&mut [u8]),
    rust: impl Fn(&mut [u8]),
    effort: Effort,
) -> Speed {
    let mut given = vec![0; variant.digest_bytes()];
    let mut expected = given.clone();
    let mut archive = || archive(&mut given);
    let mut rust = || rust(&mut expected);
    let [archive, rust] = best([&mut archive, &mut rust], effort);
    assert_eq!(given, expected, "{}, {} B", variant.name, message.len());
    let bytes = message.len().max(1) as f64;
    Speed {
        archive: archive / bytes,
        rust: rust / bytes,
    }
}

/// The least time of each call, in nanoseconds, with the calls in alternation.
pub fn best<const N: usize>(mut calls: [&mut dyn FnMut(); N], effort: Effort) -> [f64; N] {
    let begun = processor_time();
    let mut least = [f64::INFINITY; N];
    let mut done = 0;
    while done < effort.repetitions || processor_time() - begun < effort.time {
        for (least, call) in least.iter_mut().zip(&mut calls) {
            *least = least.min(time_of(call));
        }
        done += 1;
    }
    least
}

/// Nanoseconds of one call, from as many as fill the least time. They are
/// doubled until they do, so that none pays for a look at the clock.
fn time_of(call: &mut dyn FnMut()) -> f64 {
    let mut calls = 1;
    loop {
        let begun = processor_time();
        (0..calls).for_each(|_| call());
        let spent = processor_time() - begun;
        if spent >= LEAST {
            return spent.as_nanos() as f64 / f64::from(calls);
        }
        calls *= 2;
    }
}

/// The time that the processor has spent on this thread.
fn processor_time() -> Duration {
    extern "C" {
        fn clock_gettime(clock: c_int, time: *mut [c_long; 2]) -> c_int;
    }
    // CLOCK_THREAD_CPUTIME_ID of Linux.
    const OF_THREAD: c_int = 3;
    let mut time = [0; 2];
    // SAFETY: a timespec is two numbers, and this one can be written.
    let answer = unsafe { clock_gettime(OF_THREAD, &mut time) };
    assert_eq!(answer, 0, "no clock of the thread");
    Duration::new(time[0] as u64, time[1] as u32)
}
