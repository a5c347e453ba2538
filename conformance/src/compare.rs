//! One call on both sides: the archive, with everything that it may write
//! between guards, and the Rust version built apart. Every function panics
//! if the answers or any lent bytes differ, or if a refused call changed
//! something, and gives the answer and what was written.

use wickslate_reference as reference;
use wickslate_reference::lesamnta;
use wickslate_reference::manifest;
use wickslate_reference::running::{self, Running};
use wickslate_reference::segments::{self, Refusal};

use crate::lent::{filled_tail, only_read, Bytes, Value};
use crate::wickslate::{self, Answer, Cursor, Hasher};

/// The answer of a refusal that names an entry.
pub const fn at(refusal: u32, entry: u32) -> u32 {
    refusal + 256 * entry
}

/// The fields of a running hash.
pub fn fields(h: &Hasher) -> Running {
    Running {
        variant: h.variant,
        stage: h.stage,
        total: h.total,
        state: h.state,
        held: h.held,
    }
}

/// A running hash with these fields.
pub fn hasher(fields: &Running) -> Hasher {
    filled_tail(Hasher {
        variant: fields.variant,
        stage: fields.stage,
        total: fields.total,
        state: fields.state,
        held: fields.held,
        ..Hasher::default()
    })
}

/// Makes a call that lends a running hash, and expects this of it.
fn expect_hasher(
    before: Hasher,
    (refusal, expected): (u8, Running),
    call: impl FnOnce(&mut Hasher) -> Answer,
) -> (u32, Hasher) {
    let before = filled_tail(before);
    let mut lent = Value::new(before);
    let Answer(answer) = call(lent.lend());
    let after = lent.take_back();
    let given = (answer, fields(&after));
    assert_eq!(given, (refusal.into(), expected), "from {before:?}");
    if answer != 0 {
        assert_eq!(after, before, "refusal {answer} changed the running hash");
    }
    (answer, filled_tail(after))
}

/// Makes a call that lends an output holding `before`, and expects this of
/// it: the answer and what the output holds then.
fn expect_bytes(
    before: &[u8],
    expected: (u32, Vec<u8>),
    call: impl FnOnce(&mut [u8]) -> Answer,
) -> (u32, Vec<u8>) {
    let mut lent = Bytes::new(before);
    let Answer(answer) = call(lent.lend());
    let after = lent.take_back();
    assert_eq!((answer, &after), (expected.0, &expected.1));
    if answer != 0 {
        assert_eq!(after, before, "refusal {answer} changed the output");
    }
    expected
}

/// What the call leaves in a copy of the output.
fn with_copy(before: &[u8], call: impl FnOnce(&mut [u8]) -> u8) -> (u32, Vec<u8>) {
    let mut after = before.to_vec();
    (call(&mut after).into(), after)
}

/// Begins a message.
pub fn start(h: Hasher, variant: u32) -> (u32, Hasher) {
    let expected = match running::start(variant) {
        (0, begun) => (0, begun),
        (refusal, _) => (refusal, fields(&h)),
    };
    expect_hasher(h, expected, |h| wickslate::start(h, variant))
}

/// Takes a piece.
pub fn update(h: Hasher, piece: &[u8]) -> (u32, Hasher) {
    let expected = fields(&h).update(piece);
    only_read(&[piece], || {
        expect_hasher(h, expected, |h| wickslate::update(h, piece))
    })
}

/// Takes a piece whose last byte contributes `bits` bits.
pub fn update_bits(h: Hasher, piece: &[u8], bits: u32) -> (u32, Hasher) {
    let expected = fields(&h).update_bits(piece, bits);
    only_read(&[piece], || {
        expect_hasher(h, expected, |h| wickslate::update_bits(h, piece, bits))
    })
}

/// Ends the message.
pub fn finish(h: Hasher) -> (u32, Hasher) {
    expect_hasher(h, fields(&h).finish(), wickslate::finish)
}

/// Reads the digest, or the end state, into an output holding `before`.
pub fn read(h: Hasher, end_state: bool, before: &[u8]) -> (u32, Vec<u8>) {
    let expected = with_copy(before, |out| fields(&h).read(end_state, out));
    let call = match end_state {
        true => wickslate::end_state,
        false => wickslate::digest,
    };
    let lent = Value::new(filled_tail(h));
    let answer = expect_bytes(before, expected, |out| call(lent.get(), out));
    assert_eq!(lent.take_back(), filled_tail(h), "reading changes nothing");
    answer
}

/// What the result of the Rust version leaves in a copy of the output.
fn with_result(before: &[u8], result: Result<Vec<u8>, u8>) -> (u32, Vec<u8>) {
    with_copy(before, |out| match result {
        Ok(result) => running::write_front(&result, out),
        Err(refusal) => refusal,
    })
}

/// A whole message, into an output holding `before`.
pub fn hash(variant: u32, message: &[u8], wanted: u32, before: &[u8]) -> (u32, Vec<u8>) {
    let result = match wanted {
        0 => reference::digest(variant, message),
        _ => reference::end_state(variant, message),
    };
    only_read(&[message], || {
        expect_bytes(before, with_result(before, result), |out| {
            wickslate::hash(variant, message, wanted, out)
        })
    })
}

/// The same for a message whose last byte contributes `bits` bits.
pub fn hash_bits(
    variant: u32,
    message: &[u8],
    bits: u32,
    wanted: u32,
    before: &[u8],
) -> (u32, Vec<u8>) {
    let result = match wanted {
        0 => reference::digest_bits(variant, message, bits),
        _ => reference::end_state_bits(variant, message, bits),
    };
    only_read(&[message], || {
        expect_bytes(before, with_result(before, result), |out| {
            wickslate::hash_bits(variant, message, bits, wanted, out)
        })
    })
}

/// The permutation on an image, or its inverse.
pub fn permute(variant: u32, image: &[u8], back: bool) -> (u32, Vec<u8>) {
    type Change<T> = fn(u32, &mut [u8]) -> T;
    let (ours, theirs): (Change<Answer>, Change<u8>) = match back {
        true => (wickslate::unpermute, reference::unpermute),
        false => (wickslate::permute, reference::permute),
    };
    let expected = with_copy(image, |image| theirs(variant, image));
    expect_bytes(image, expected, |image| ours(variant, image))
}

/// Lesamnta-LW's cipher on a state, or its inverse: the state after it.
pub fn cipher(key: [u8; 16], state: [u8; 32], back: bool) -> [u8; 32] {
    type Ours = fn(&[u8; 16], &mut [u8; 32]);
    type Theirs = fn([u8; 16], [u8; 32]) -> [u8; 32];
    let (ours, theirs): (Ours, Theirs) = match back {
        true => (wickslate::lesamnta_decrypt, lesamnta::decrypt),
        false => (wickslate::lesamnta_encrypt, lesamnta::encrypt),
    };
    let lent_key = Value::new(key);
    let mut lent = Value::new(state);
    only_read(&[lent_key.get()], || ours(lent_key.get(), lent.lend()));
    assert_eq!(lent_key.take_back(), key);
    let after = lent.take_back();
    assert_eq!(after, theirs(key, state), "{key:x?} on {state:x?}");
    after
}

/// The lost block, into an output holding `before`.
pub fn recover(
    variant: u32,
    message: &[u8],
    place: usize,
    image: &[u8],
    before: &[u8],
) -> (u32, Vec<u8>) {
    let expected = with_copy(before, |out| {
        reference::recover::recover(variant, message, place, image, out)
    });
    only_read(&[message, image], || {
        expect_bytes(before, expected, |out| {
            wickslate::recover(variant, message, place, image, out)
        })
    })
}

/// The same for a message whose last byte contributes `bits` bits.
pub fn recover_bits(
    variant: u32,
    message: &[u8],
    bits: u32,
    place: usize,
    image: &[u8],
    before: &[u8],
) -> (u32, Vec<u8>) {
    let expected = with_copy(before, |out| {
        reference::recover::recover_bits(variant, message, bits, place, image, out)
    });
    only_read(&[message, image], || {
        expect_bytes(before, expected, |out| {
            wickslate::recover_bits(variant, message, bits, place, image, out)
        })
    })
}

/// What the lent numbers hold before a call.
const OLD: u32 = 0xdead_beef;

/// The answer that a refusal of the Rust version stands for.
fn answer<T>(result: Result<T, Refusal>) -> u32 {
    match result {
        Ok(_) => 0,
        Err((refusal, entry)) => at(refusal.into(), entry.unwrap_or(0) as u32),
    }
}

/// Makes a call that lends two numbers for the offset and length of entry
/// `k`, and expects the entry of it, or a refusal that leaves both.
fn expect_entry(
    list: &[u8],
    k: usize,
    call: impl FnOnce(&mut u32, &mut u32) -> Answer,
) -> (u32, u32, u32) {
    let mut offset = Value::new(OLD);
    let mut length = Value::new(OLD + 1);
    let Answer(given) = only_read(&[list], || call(offset.lend(), length.lend()));
    let given = (given, offset.take_back(), length.take_back());
    let expected = match segments::entry(list, k) {
        Ok((offset, length)) => (0, offset as u32, length as u32),
        refused => (answer(refused), OLD, OLD + 1),
    };
    assert_eq!(given, expected, "entry {k}");
    given
}

/// The offset and length of entry `k`.
pub fn entry(list: &[u8], k: usize) -> (u32, u32, u32) {
    expect_entry(list, k, |offset, length| {
        wickslate::entry(list, k, offset, length)
    })
}

/// A step of the cursor at entry `next`: it gives the entry and moves on, or
/// stays.
pub fn advance(list: &[u8], next: usize) -> (u32, u32, u32) {
    let mut cursor = Value::new(Cursor::at(list, next));
    let given = expect_entry(list, next, |offset, length| {
        wickslate::advance(cursor.lend(), offset, length)
    });
    let after = if given.0 == 0 { next + 1 } else { next };
    assert_eq!(cursor.take_back(), Cursor::at(list, after));
    given
}

/// Whether entry `k` names a segment.
pub fn check_entry(list: &[u8], buffer: &[u8], k: usize) -> u32 {
    let Answer(given) = only_read(&[list, buffer], || wickslate::check_entry(list, buffer, k));
    assert_eq!(given, answer(segments::segment(list, buffer, k)));
    given
}

/// The result over a list of segments, into an output holding `before`.
pub fn hash_list(
    variant: u32,
    list: &[u8],
    buffer: &[u8],
    wanted: u32,
    before: &[u8],
) -> (u32, Vec<u8>) {
    let mut out = before.to_vec();
    let result = segments::hash_list(variant, list, buffer, wanted != 0, &mut out);
    only_read(&[list, buffer], || {
        expect_bytes(before, (answer(result), out), |out| {
            wickslate::hash_list(variant, list, buffer, wanted, out)
        })
    })
}

/// Whether a manifest is sound.
pub fn check_manifest(bytes: &[u8]) -> u32 {
    let Answer(given) = only_read(&[bytes], || wickslate::check_manifest(bytes));
    assert_eq!(given, manifest::check(bytes).err().unwrap_or(0).into());
    given
}
