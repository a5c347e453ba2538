//! The functions of the archive, with slices and references.

use std::marker::PhantomData;
use std::mem::offset_of;

/// What a call answers: 0, or the number of its refusal in the low byte and
/// above it, for refusals 10 and 11, the number of an entry.
#[must_use]
#[repr(transparent)]
#[derive(Clone, Copy, Debug, PartialEq, Eq)]
pub struct Answer(pub u32);

impl Answer {
    /// Whether the call was done.
    pub fn is_done(self) -> bool {
        self.0 == 0
    }

    /// The number of the refusal, 0 for none.
    pub fn number(self) -> u8 {
        (self.0 & 0xff) as u8
    }

    /// The entry that refusals 10 and 11 name, 0 for any other answer.
    pub fn entry(self) -> u32 {
        self.0 >> 8
    }
}

/// The running hash as the archive lays it out, with a name for the bytes that
/// belong to no field, so that all 60 can be set and compared.
#[repr(C)]
#[derive(Clone, Copy, Debug, PartialEq, Eq)]
pub struct Hasher {
    /// The bits taken so far.
    pub total: u32,
    /// The variant's number.
    pub variant: u8,
    /// 0 open, 1 closed.
    pub stage: u8,
    /// The state's image, then zeros.
    pub state: [u8; 36],
    /// The bits that fill no block yet, then zeros.
    pub held: [u8; 16],
    /// The two bytes after the fields, which mean nothing.
    pub tail: [u8; 2],
}

impl Default for Hasher {
    /// All zeros, which is no running hash yet.
    fn default() -> Hasher {
        Hasher {
            total: 0,
            variant: 0,
            stage: 0,
            state: [0; 36],
            held: [0; 16],
            tail: [0; 2],
        }
    }
}

impl Hasher {
    /// The same fields, with this byte in the tail.
    pub fn filled(self, byte: u8) -> Hasher {
        Hasher {
            tail: [byte; 2],
            ..self
        }
    }
}

const _: () = {
    assert!(size_of::<Hasher>() == 60 && align_of::<Hasher>() == 4);
    assert!(offset_of!(Hasher, total) == 0);
    assert!(offset_of!(Hasher, variant) == 4);
    assert!(offset_of!(Hasher, stage) == 5);
    assert!(offset_of!(Hasher, state) == 6);
    assert!(offset_of!(Hasher, held) == 42);
    assert!(offset_of!(Hasher, tail) == 58);
};

/// A segment list and the number of its next entry, as the archive lays them
/// out.
#[repr(C)]
#[derive(Clone, Copy, Debug, PartialEq, Eq)]
pub struct Cursor<'a> {
    list: *const u8,
    list_bytes: usize,
    next: usize,
    lent: PhantomData<&'a [u8]>,
}

impl<'a> Cursor<'a> {
    /// The cursor over the list, at entry `next`.
    pub fn at(list: &'a [u8], next: usize) -> Cursor<'a> {
        Cursor {
            list: list.as_ptr(),
            list_bytes: list.len(),
            next,
            lent: PhantomData,
        }
    }
}

const _: () = {
    assert!(size_of::<Cursor>() == 24 && align_of::<Cursor>() == 8);
    assert!(offset_of!(Cursor, list) == 0);
    assert!(offset_of!(Cursor, list_bytes) == 8);
    assert!(offset_of!(Cursor, next) == 16);
};

mod archive {
    use super::{Answer, Cursor, Hasher};

    // A slice crosses as the address of its first byte and its length.
    extern "C" {
        pub fn wickslate_start(h: *mut Hasher, variant: u32) -> Answer;
        pub fn wickslate_update(h: *mut Hasher, piece: *const u8, bytes: usize) -> Answer;
        pub fn wickslate_update_bits(
            h: *mut Hasher,
            piece: *const u8,
            bytes: usize,
            bits: u32,
        ) -> Answer;
        pub fn wickslate_finish(h: *mut Hasher) -> Answer;
        pub fn wickslate_digest(h: *const Hasher, out: *mut u8, bytes: usize) -> Answer;
        pub fn wickslate_end_state(h: *const Hasher, out: *mut u8, bytes: usize) -> Answer;
        pub fn wickslate_hash(
            variant: u32,
            message: *const u8,
            message_bytes: usize,
            wanted: u32,
            out: *mut u8,
            out_bytes: usize,
        ) -> Answer;
        pub fn wickslate_hash_bits(
            variant: u32,
            message: *const u8,
            message_bytes: usize,
            bits: u32,
            wanted: u32,
            out: *mut u8,
            out_bytes: usize,
        ) -> Answer;
        pub fn wickslate_permute(variant: u32, image: *mut u8, bytes: usize) -> Answer;
        pub fn wickslate_unpermute(variant: u32, image: *mut u8, bytes: usize) -> Answer;
        pub fn wickslate_lesamnta_encrypt(key: *const [u8; 16], state: *mut [u8; 32]);
        pub fn wickslate_lesamnta_decrypt(key: *const [u8; 16], state: *mut [u8; 32]);
        pub fn wickslate_recover(
            variant: u32,
            message: *const u8,
            message_bytes: usize,
            place: usize,
            image: *const u8,
            image_bytes: usize,
            out: *mut u8,
            out_bytes: usize,
        ) -> Answer;
        pub fn wickslate_recover_bits(
            variant: u32,
            message: *const u8,
            message_bytes: usize,
            bits: u32,
            place: usize,
            image: *const u8,
            image_bytes: usize,
            out: *mut u8,
            out_bytes: usize,
        ) -> Answer;
        pub fn wickslate_entry(
            list: *const u8,
            list_bytes: usize,
            k: usize,
            offset: *mut u32,
            length: *mut u32,
        ) -> Answer;
        pub fn wickslate_advance(c: *mut Cursor, offset: *mut u32, length: *mut u32) -> Answer;
        pub fn wickslate_check_entry(
            list: *const u8,
            list_bytes: usize,
            buffer: *const u8,
            buffer_bytes: usize,
            k: usize,
        ) -> Answer;
        pub fn wickslate_hash_list(
            variant: u32,
            list: *const u8,
            list_bytes: usize,
            buffer: *const u8,
            buffer_bytes: usize,
            wanted: u32,
            out: *mut u8,
            out_bytes: usize,
        ) -> Answer;
        pub fn wickslate_check_manifest(manifest: *const u8, manifest_bytes: usize) -> Answer;
    }
}

// In every call below the addresses come from references and slices, which
// are never null, are aligned and initialised, and do not overlap if one can
// be written. An empty slice has an address too.

/// Begins a message: refusal 1.
pub fn start(h: &mut Hasher, variant: u32) -> Answer {
    // SAFETY: see above.
    unsafe { archive::wickslate_start(h, variant) }
}

/// Takes a piece: refusals 2, 3, 16, 4.
pub fn update(h: &mut Hasher, piece: &[u8]) -> Answer {
    // SAFETY: see above.
    unsafe { archive::wickslate_update(h, piece.as_ptr(), piece.len()) }
}

/// Takes a piece whose last byte contributes `bits` bits, the high ones for
/// PHOTON and Lesamnta-LW and the low ones for SPONGENT: refusals 2, 3, 15, 16,
/// 4.
pub fn update_bits(h: &mut Hasher, piece: &[u8], bits: u32) -> Answer {
    // SAFETY: see above.
    unsafe { archive::wickslate_update_bits(h, piece.as_ptr(), piece.len(), bits) }
}

/// Ends the message: refusals 2, 3.
pub fn finish(h: &mut Hasher) -> Answer {
    // SAFETY: see above.
    unsafe { archive::wickslate_finish(h) }
}

/// Writes the digest: refusals 2, 3, 5.
pub fn digest(h: &Hasher, out: &mut [u8]) -> Answer {
    // SAFETY: see above.
    unsafe { archive::wickslate_digest(h, out.as_mut_ptr(), out.len()) }
}

/// Writes the image of the end state: refusals 2, 3, 5.
pub fn end_state(h: &Hasher, out: &mut [u8]) -> Answer {
    // SAFETY: see above.
    unsafe { archive::wickslate_end_state(h, out.as_mut_ptr(), out.len()) }
}

/// Hashes a whole message: its digest or, if `wanted` is not 0, its end state.
/// Refusals 1, 4, 5.
pub fn hash(variant: u32, message: &[u8], wanted: u32, out: &mut [u8]) -> Answer {
    // SAFETY: see above.
    unsafe {
        archive::wickslate_hash(
            variant,
            message.as_ptr(),
            message.len(),
            wanted,
            out.as_mut_ptr(),
            out.len(),
        )
    }
}

/// Hashes a whole message whose last byte contributes `bits` bits, as for
/// [`update_bits`]: refusals 1, 15, 4, 5.
pub fn hash_bits(variant: u32, message: &[u8], bits: u32, wanted: u32, out: &mut [u8]) -> Answer {
    // SAFETY: see above.
    unsafe {
        archive::wickslate_hash_bits(
            variant,
            message.as_ptr(),
            message.len(),
            bits,
            wanted,
            out.as_mut_ptr(),
            out.len(),
        )
    }
}

/// The permutation on an image: refusals 1, 17, 6.
pub fn permute(variant: u32, image: &mut [u8]) -> Answer {
    // SAFETY: see above.
    unsafe { archive::wickslate_permute(variant, image.as_mut_ptr(), image.len()) }
}

/// The inverse of the permutation on an image: refusals 1, 17, 6.
pub fn unpermute(variant: u32, image: &mut [u8]) -> Answer {
    // SAFETY: see above.
    unsafe { archive::wickslate_unpermute(variant, image.as_mut_ptr(), image.len()) }
}

/// Lesamnta-LW's block cipher with this key on a state: it is never refused.
pub fn lesamnta_encrypt(key: &[u8; 16], state: &mut [u8; 32]) {
    // SAFETY: see above.
    unsafe { archive::wickslate_lesamnta_encrypt(key, state) }
}

/// The inverse of Lesamnta-LW's block cipher with this key on a state: it is
/// never refused.
pub fn lesamnta_decrypt(key: &[u8; 16], state: &mut [u8; 32]) {
    // SAFETY: see above.
    unsafe { archive::wickslate_lesamnta_decrypt(key, state) }
}

/// The lost block, for Lesamnta-LW only at the last place: refusals 1, 4, 7,
/// 17, 6, 5, 8.
pub fn recover(variant: u32, message: &[u8], place: usize, image: &[u8], out: &mut [u8]) -> Answer {
    // SAFETY: see above.
    unsafe {
        archive::wickslate_recover(
            variant,
            message.as_ptr(),
            message.len(),
            place,
            image.as_ptr(),
            image.len(),
            out.as_mut_ptr(),
            out.len(),
        )
    }
}

/// The lost block of a message whose last byte contributes `bits` bits, as for
/// [`update_bits`]: refusals 1, 15, 4, 7, 17, 6, 5, 8.
pub fn recover_bits(
    variant: u32,
    message: &[u8],
    bits: u32,
    place: usize,
    image: &[u8],
    out: &mut [u8],
) -> Answer {
    // SAFETY: see above.
    unsafe {
        archive::wickslate_recover_bits(
            variant,
            message.as_ptr(),
            message.len(),
            bits,
            place,
            image.as_ptr(),
            image.len(),
            out.as_mut_ptr(),
            out.len(),
        )
    }
}

/// The offset and length of entry `k`: refusals 9, 7.
pub fn entry(list: &[u8], k: usize, offset: &mut u32, length: &mut u32) -> Answer {
    // SAFETY: see above.
    unsafe { archive::wickslate_entry(list.as_ptr(), list.len(), k, offset, length) }
}

/// A step of the cursor, which gives the offset and length of the entry:
/// refusals 9, 7.
pub fn advance(c: &mut Cursor, offset: &mut u32, length: &mut u32) -> Answer {
    // SAFETY: see above; the cursor's list is a slice too.
    unsafe { archive::wickslate_advance(c, offset, length) }
}

/// Whether entry `k` names a segment of the buffer: refusals 9, 7, 10, 11.
pub fn check_entry(list: &[u8], buffer: &[u8], k: usize) -> Answer {
    // SAFETY: see above.
    unsafe {
        archive::wickslate_check_entry(list.as_ptr(), list.len(), buffer.as_ptr(), buffer.len(), k)
    }
}

/// Hashes a list and its segments: the digest or, if `wanted` is not 0, the end
/// state. Refusals 1, 9, 10, 11, 4, 5.
pub fn hash_list(variant: u32, list: &[u8], buffer: &[u8], wanted: u32, out: &mut [u8]) -> Answer {
    // SAFETY: see above.
    unsafe {
        archive::wickslate_hash_list(
            variant,
            list.as_ptr(),
            list.len(),
            buffer.as_ptr(),
            buffer.len(),
            wanted,
            out.as_mut_ptr(),
            out.len(),
        )
    }
}

/// Whether a manifest is sound: refusals 12, 13, 14.
pub fn check_manifest(manifest: &[u8]) -> Answer {
    // SAFETY: see above.
    unsafe { archive::wickslate_check_manifest(manifest.as_ptr(), manifest.len()) }
}
