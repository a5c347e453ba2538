//! How deep a call of the archive goes: it runs on a stack of its own that
//! holds a known byte everywhere, and leaves its trace there.

use std::arch::asm;

use crate::wickslate::Answer;

/// The lines of sixteen bytes of the stack, far more than a call needs.
const LINES: usize = 1 << 14;

/// What the stack holds before a call.
const PAINT: u8 = 0xa5;

/// An exported function, by its address.
pub type Function = unsafe extern "C" fn();

/// Makes a call: its answer, and how many bytes of stack it used, the return
/// address and the words that a caller puts there included.
///
/// # Safety
///
/// The words are what the function takes, in its order: numbers, and the
/// addresses of what it reads and writes, which nothing else uses meanwhile.
pub unsafe fn depth(function: Function, words: &[usize]) -> (Answer, usize) {
    let mut stack = Stack::painted();
    // SAFETY: as promised.
    let answer = unsafe { stack.call(function, words) };
    (answer, stack.used())
}

/// As much of a stack as has to be aligned.
#[derive(Clone)]
#[repr(align(16))]
struct Line([u8; 16]);

struct Stack {
    lines: Vec<Line>,
}

impl Stack {
    fn painted() -> Stack {
        Stack {
            lines: vec![Line([PAINT; 16]); LINES],
        }
    }

    /// Calls the function on this stack, which grows down from its end. The
    /// convention on x86-64 has six words in registers and the others on the
    /// stack, which is aligned to a line.
    ///
    /// # Safety
    ///
    /// As for [`depth`].
    unsafe fn call(&mut self, function: Function, words: &[usize]) -> Answer {
        let word = |k: usize| words.get(k).copied().unwrap_or(0);
        let mut top = self.lines.as_mut_ptr_range().end;
        for k in (6..words.len()).step_by(2).rev() {
            // SAFETY: a line holds two words, and there are lines enough.
            unsafe {
                top = top.sub(1);
                top.cast::<[usize; 2]>().write([word(k), word(k + 1)]);
            }
        }
        let answer: u32;
        // SAFETY: the function finds all as a caller leaves it, and keeps r12
        // as every function does.
        unsafe {
            asm!(
                "mov r12, rsp",
                "mov rsp, {top}",
                "call {function}",
                "mov rsp, r12",
                top = in(reg) top,
                function = in(reg) function,
                in("rdi") word(0),
                in("rsi") word(1),
                in("rdx") word(2),
                in("rcx") word(3),
                in("r8") word(4),
                in("r9") word(5),
                lateout("eax") answer,
                out("r12") _,
                clobber_abi("C"),
            );
        }
        Answer(answer)
    }

    /// The bytes from the deepest that was overwritten to the end.
    fn used(&self) -> usize {
        let bytes = self.lines.iter().flat_map(|line| line.0);
        let kept = bytes.take_while(|&byte| byte == PAINT).count();
        assert!(kept > 8 * LINES, "too deep to be sure of anything");
        16 * LINES - kept
    }
}
