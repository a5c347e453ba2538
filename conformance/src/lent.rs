//! Memory that is lent to a call, between guards that no call may change.

use std::fmt::Debug;
use std::hint::black_box;

use crate::wickslate::Hasher;

const GUARD_BYTES: usize = 24;
const GUARD: u8 = 0xc7;

/// Bytes between two guards.
pub struct Bytes {
    all: Vec<u8>,
}

impl Bytes {
    /// A copy of the bytes, with guards.
    pub fn new(bytes: &[u8]) -> Bytes {
        let guard = [GUARD; GUARD_BYTES];
        Bytes {
            all: [&guard, bytes, &guard].concat(),
        }
    }

    /// The bytes between the guards, to be written.
    pub fn lend(&mut self) -> &mut [u8] {
        let end = self.all.len() - GUARD_BYTES;
        &mut self.all[GUARD_BYTES..end]
    }

    /// The bytes between the guards. Panics if a guard was changed.
    pub fn take_back(self) -> Vec<u8> {
        let mut all = black_box(self.all);
        let after = all.split_off(all.len() - GUARD_BYTES);
        let bytes = all.split_off(GUARD_BYTES);
        for guard in [all, after] {
            assert_eq!(guard, [GUARD; GUARD_BYTES], "bytes beside the lent ones");
        }
        bytes
    }
}

/// One value between two guards.
#[repr(C)]
pub struct Value<T> {
    before: [u8; GUARD_BYTES],
    value: T,
    after: [u8; GUARD_BYTES],
}

impl<T: Debug> Value<T> {
    /// The value, with guards.
    pub fn new(value: T) -> Value<T> {
        Value {
            before: [GUARD; GUARD_BYTES],
            value,
            after: [GUARD; GUARD_BYTES],
        }
    }

    /// The value between the guards, to be written.
    pub fn lend(&mut self) -> &mut T {
        &mut self.value
    }

    /// The value between the guards, to be read.
    pub fn get(&self) -> &T {
        &self.value
    }

    /// The value between the guards. Panics if a guard was changed.
    pub fn take_back(self) -> T {
        let back = black_box(self);
        for guard in [back.before, back.after] {
            let value = &back.value;
            assert_eq!(guard, [GUARD; GUARD_BYTES], "bytes beside {value:?}");
        }
        back.value
    }
}

/// Makes a call that only reads these inputs, and expects them unchanged.
pub fn only_read<T>(inputs: &[&[u8]], call: impl FnOnce() -> T) -> T {
    let kept: Vec<Vec<u8>> = inputs.iter().map(|input| input.to_vec()).collect();
    let answer = call();
    assert!(black_box(inputs) == kept, "an input was changed");
    answer
}

/// The running hash with a known byte in the bytes after its fields.
pub fn filled_tail(h: Hasher) -> Hasher {
    h.filled(GUARD)
}
