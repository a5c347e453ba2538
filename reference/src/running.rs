//! The running hash: a message taken in pieces, held between calls as the
//! library lays it out. Each call reads the bits out, works on them and
//! packs them again.

use crate::bits::{pack, unpack, Order};
use crate::message::Message;
use crate::padding::{added, Padding};
use crate::variants::{variant, Variant};
use crate::{chain, image};
use crate::{
    BAD_BIT_NUMBER, BIT_LIMIT, DONE, INSIDE_BYTE, MALFORMED, OUTPUT_TOO_SHORT, TOO_LONG,
    UNKNOWN_VARIANT, WRONG_STAGE,
};

/// The bytes for bits that do not fill a block yet: those of the longest
/// block.
pub const HELD_BYTES: usize = 16;

/// A running hash, well formed or not.
#[derive(Clone, Copy, Debug, PartialEq, Eq)]
pub struct Running {
    /// The variant's number.
    pub variant: u8,
    /// 0 while it takes pieces, 1 once it is closed.
    pub stage: u8,
    /// The bits taken so far.
    pub total: u32,
    /// The state's image, and zeros.
    pub state: [u8; 36],
    /// The bits that do not fill a block yet, from the high end of the first
    /// byte, and zeros.
    pub held: [u8; HELD_BYTES],
}

/// What a well-formed running hash stands for.
struct Open {
    variant: &'static Variant,
    state: Vec<bool>,
    held: Vec<bool>,
}

/// A fresh running hash; for an unknown variant the number 1 and zeros.
pub fn start(number: u32) -> (u8, Running) {
    let empty = Running {
        variant: 0,
        stage: 0,
        total: 0,
        state: [0; 36],
        held: [0; HELD_BYTES],
    };
    match variant(number) {
        None => (UNKNOWN_VARIANT, empty),
        Some(known) => {
            let state = chain::start_state(known);
            let begun = Running {
                variant: number as u8,
                state: padded(&image::of_state(known, &state)),
                ..empty
            };
            (DONE, begun)
        }
    }
}

impl Running {
    /// Takes a piece. Refusals 2, 3, 16 and 4, with the hash as it was.
    pub fn update(self, piece: &[u8]) -> (u8, Running) {
        self.taken(Message::whole(piece))
    }

    /// Takes a piece of whose last byte `bits` bits count. Refusals 2, 3, 15,
    /// 16 and 4, with the hash as it was.
    pub fn update_bits(self, piece: &[u8], bits: u32) -> (u8, Running) {
        self.taken(Message::ending(piece, bits))
    }

    fn taken(self, piece: Message) -> (u8, Running) {
        let Some(mut parts) = self.parts() else {
            return (MALFORMED, self);
        };
        if self.stage != 0 {
            return (WRONG_STAGE, self);
        }
        if !piece.is_sound() {
            return (BAD_BIT_NUMBER, self);
        }
        if !self.total.is_multiple_of(8) {
            return (INSIDE_BYTE, self);
        }
        let total = u128::from(self.total) + piece.length();
        if total > BIT_LIMIT as u128 {
            return (TOO_LONG, self);
        }
        parts.take(piece.bits(parts.variant.family));
        (DONE, self.with(&parts, 0, total as u32))
    }

    /// Closes the hash: it takes every block that the padding leaves. Refusals
    /// 2 and 3, with the hash as it was.
    pub fn finish(self) -> (u8, Running) {
        let Some(mut parts) = self.parts() else {
            return (MALFORMED, self);
        };
        if self.stage != 0 {
            return (WRONG_STAGE, self);
        }
        let bits = self.total as usize;
        parts.take(added(parts.variant, Padding::NextBit, bits));
        (DONE, self.with(&parts, 1, self.total))
    }

    /// Writes the digest, or the end state's image, over the front of `out`.
    /// Refusals 2, 3 and 5.
    pub fn read(&self, end_state: bool, out: &mut [u8]) -> u8 {
        let Some(parts) = self.parts() else {
            return MALFORMED;
        };
        if self.stage != 1 {
            return WRONG_STAGE;
        }
        let result = if end_state {
            image::of_state(parts.variant, &parts.state)
        } else {
            let digest = chain::digest(parts.variant, &parts.state);
            pack(Order::HighestFirst, &digest)
        };
        write_front(&result, out)
    }

    /// What it stands for; none if it is not well formed.
    fn parts(&self) -> Option<Open> {
        let variant = variant(self.variant.into())?;
        let total = self.total as usize;
        if self.stage > 1 || total > BIT_LIMIT {
            return None;
        }
        let (front, behind) = self.state.split_at(variant.image_bytes());
        let state = image::to_state(variant, front)?;
        let mut held = unpack(Order::HighestFirst, &self.held);
        let count = match self.stage {
            0 => total % variant.block_bits,
            _ => 0,
        };
        let past = held.split_off(count);
        let clear = behind.iter().all(|&byte| byte == 0) && !past.contains(&true);
        clear.then_some(Open {
            variant,
            state,
            held,
        })
    }

    fn with(self, parts: &Open, stage: u8, total: u32) -> Running {
        Running {
            stage,
            total,
            state: padded(&image::of_state(parts.variant, &parts.state)),
            held: padded(&pack(Order::HighestFirst, &parts.held)),
            ..self
        }
    }
}

impl Open {
    /// Adds bits behind the held ones and runs every block that they fill.
    fn take(&mut self, bits: Vec<bool>) {
        self.held.extend(bits);
        let blocks = self.held.chunks_exact(self.variant.block_bits);
        let rest = blocks.remainder().to_vec();
        for block in blocks {
            chain::block_step(self.variant, &mut self.state, block);
        }
        self.held = rest;
    }
}

/// Writes a result over the front of an output, or refuses with 5.
pub fn write_front(result: &[u8], out: &mut [u8]) -> u8 {
    match out.get_mut(..result.len()) {
        None => OUTPUT_TOO_SHORT,
        Some(front) => {
            front.copy_from_slice(result);
            DONE
        }
    }
}

/// The bytes, and zeros behind them.
fn padded<const N: usize>(bytes: &[u8]) -> [u8; N] {
    let mut all = [0; N];
    all[..bytes.len()].copy_from_slice(bytes);
    all
}
