//! Lesamnta-LW's functions Q and G on the words of Annex B.3, and its cipher:
//! the two steps that lead to Annex B.3's digest, each followed by its inverse.

use super::{hexadecimal, Cases, LESAMNTA_LW, LESAMNTA_MESSAGE};
use crate::lesamnta::{decrypt, encrypt, g, q, Key, State};
use crate::message::Message;
use crate::padding::{block, block_count, Padding};
use crate::variants::{variant, Family};
use crate::{bits, chain, image};

/// A call of the cipher or of its inverse, with its name.
type Operation = (&'static str, fn(Key, State) -> State);

const ENCRYPT: Operation = ("encrypt", encrypt);
const DECRYPT: Operation = ("decrypt", decrypt);

pub fn add(cases: &mut Cases) {
    cases.heading("Annex B.3: Q, G, and the cipher in the two steps of the message abc, and back");
    add_functions(cases, 0xa432_3129, 0x0000_0256_0000_0256, 0x0000_0256);
    add_steps(cases, LESAMNTA_MESSAGE);
}

/// Q of a word, and G of two words and the word of a round key.
fn add_functions(cases: &mut Cases, x: u32, y: u64, key: u32) {
    let [q, g] = [format!("{:08x}", q(x)), format!("{:016x}", g(y, key))];
    cases.add(
        format!("q-and-g {LESAMNTA_LW} {x:08x} {y:016x} {key:08x}"),
        format!("0 {q} {g}"),
    );
}

/// The cipher and its inverse in every step that a message takes.
fn add_steps(cases: &mut Cases, message: &[u8]) {
    let variant = variant(LESAMNTA_LW).expect("Lesamnta-LW");
    let message = Message::whole(message).bits(Family::LesamntaLw);
    let mut value = image::of_state(variant, &chain::start_state(variant));
    for index in 0..block_count(variant, message.len()) {
        let bits = block(variant, Padding::NextBit, &message, index);
        let block = bits::pack(bits::Order::HighestFirst, &bits);
        let key = value[..16].try_into().expect("half a chaining value");
        let state = [&block, &value[16..]].concat();
        let state = state.try_into().expect("a block and the other half");
        let after = add_call(cases, ENCRYPT, key, state);
        add_call(cases, DECRYPT, key, after);
        value = after.to_vec();
    }
}

/// Makes the call, adds it, and gives the state after it.
fn add_call(cases: &mut Cases, operation: Operation, key: Key, state: State) -> State {
    let (name, call) = operation;
    let after = call(key, state);
    let [key, state, output] = [&key[..], &state, &after].map(hexadecimal);
    cases.add(
        format!("{name} {LESAMNTA_LW} {key} {state}"),
        format!("0 {output}"),
    );
    after
}
