//! Segment lists: entries of offset and length, eight bytes each, that name
//! segments of a buffer.

use crate::running::write_front;
use crate::variants::variant;
use crate::{digest, end_state};
use crate::{BAD_LIST, DONE, MISORDERED, OUT_OF_RANGE, PAST_END, UNKNOWN_VARIANT};

/// The greatest number of bytes of a list.
const LIST_LIMIT: usize = 4096;

/// A refusal's number, and the entry that 10 and 11 name.
pub type Refusal = (u8, Option<usize>);

/// Offsets and lengths, or refusal 9.
fn entries(list: &[u8]) -> Result<Vec<(u64, u64)>, Refusal> {
    if list.len() > LIST_LIMIT || !list.len().is_multiple_of(8) {
        return Err((BAD_LIST, None));
    }
    let number = |bytes: &[u8]| bytes.iter().fold(0, |n, &b| 256 * n + u64::from(b));
    let pair = |entry: &[u8]| (number(&entry[..4]), number(&entry[4..]));
    Ok(list.chunks(8).map(pair).collect())
}

/// The segment that entry `k` names, or refusal 10 or 11.
fn named<'a>(entries: &[(u64, u64)], buffer: &'a [u8], k: usize) -> Result<&'a [u8], Refusal> {
    let (offset, length) = entries[k];
    let former = k.checked_sub(1).map_or(0, |j| entries[j].0 + entries[j].1);
    if offset < former {
        return Err((MISORDERED, Some(k)));
    }
    if offset + length > buffer.len() as u64 {
        return Err((PAST_END, Some(k)));
    }
    Ok(&buffer[offset as usize..(offset + length) as usize])
}

/// The offset and length of entry `k`, or refusal 9 or 7.
pub fn entry(list: &[u8], k: usize) -> Result<(u64, u64), Refusal> {
    let entries = entries(list)?;
    entries.get(k).copied().ok_or((OUT_OF_RANGE, None))
}

/// The segment of entry `k`, or refusal 9, 7, 10 or 11.
pub fn segment<'a>(list: &[u8], buffer: &'a [u8], k: usize) -> Result<&'a [u8], Refusal> {
    entry(list, k)?;
    named(&entries(list)?, buffer, k)
}

/// The message over a list: how many entries there are, in two bytes, the
/// list, then the segments in order. Refusals 9, 10 and 11.
pub fn message(list: &[u8], buffer: &[u8]) -> Result<Vec<u8>, Refusal> {
    let entries = entries(list)?;
    let count = u16::try_from(entries.len()).expect("512 entries at most");
    let mut message = count.to_be_bytes().to_vec();
    message.extend(list);
    for k in 0..entries.len() {
        message.extend(named(&entries, buffer, k)?);
    }
    Ok(message)
}

/// The digest, or the end state's image, of that message. Refusals 1, 9, 10,
/// 11, 4 and 5.
pub fn hash_list(
    number: u32,
    list: &[u8],
    buffer: &[u8],
    image: bool,
    out: &mut [u8],
) -> Result<(), Refusal> {
    let plain = |refusal| (refusal, None);
    variant(number).ok_or(plain(UNKNOWN_VARIANT))?;
    let message = message(list, buffer)?;
    let result = match image {
        true => end_state(number, &message),
        false => digest(number, &message),
    };
    match write_front(&result.map_err(plain)?, out) {
        DONE => Ok(()),
        refusal => Err(plain(refusal)),
    }
}
