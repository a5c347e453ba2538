//! Which calls are refused, with which number, and that they change nothing.

use wickslate_reference::{
    digest, digest_with, end_state, message_check, permute, unpermute, Message, Padding, VARIANTS,
};

/// Lesamnta-LW, the last of [`SIZES`] and no sponge.
const LESAMNTA_LW: u32 = 11;

/// Number, name, image bytes and digest bytes of each variant.
const SIZES: [(u32, &str, usize, usize); 11] = [
    (1, "photon-100", 13, 10),
    (2, "photon-144", 18, 16),
    (3, "photon-196", 25, 20),
    (4, "photon-256", 32, 28),
    (5, "photon-288", 36, 32),
    (6, "spongent-88", 11, 11),
    (7, "spongent-136", 17, 16),
    (8, "spongent-176", 22, 20),
    (9, "spongent-240", 30, 28),
    (10, "spongent-272", 34, 32),
    (LESAMNTA_LW, "lesamnta-lw", 32, 32),
];

const UNKNOWN: [u32; 7] = [0, 12, 255, 256 + 1, 256 + 11, (1 << 24) + 10, u32::MAX];

/// The sizes of the variants that are sponges.
fn sponge_sizes() -> impl Iterator<Item = (u32, &'static str, usize, usize)> {
    let sponges = SIZES
        .into_iter()
        .filter(|&(number, ..)| number != LESAMNTA_LW);
    assert_eq!(sponges.clone().count(), 10);
    sponges
}

/// Makes both calls and expects the same refusal and the same bytes after.
fn expect_refused(number: u32, image: &[u8], refusal: u8) {
    for call in [permute, unpermute] {
        let mut after = image.to_vec();
        assert_eq!(call(number, &mut after), refusal, "variant {number}");
        assert_eq!(after, image, "variant {number}");
    }
}

#[test]
fn variants_have_the_known_sizes() {
    let sizes: Vec<_> = VARIANTS
        .iter()
        .map(|v| (v.number, v.name, v.image_bytes(), v.digest_bytes()))
        .collect();
    assert_eq!(sizes, SIZES);
}

#[test]
fn unknown_variants_are_refused_before_images_are_looked_at() {
    for number in UNKNOWN {
        for length in [0, 1, 13, 36] {
            expect_refused(number, &vec![0xa0; length], 1);
        }
        expect_refused(number, &[0xa1; 13], 1);
    }
}

/// Whatever image comes with it.
#[test]
fn lesamnta_lw_has_no_permutation() {
    for length in 0..=40 {
        for byte in [0x00, 0xa0, 0xff] {
            expect_refused(LESAMNTA_LW, &vec![byte; length], 17);
        }
    }
}

#[test]
fn images_of_a_wrong_length_are_refused() {
    for (number, _, bytes, _) in sponge_sizes() {
        for length in [0, bytes - 1, bytes + 1] {
            // All zeros too, so that only the length can be at fault.
            expect_refused(number, &vec![0xa0; length], 6);
            expect_refused(number, &vec![0x00; length], 6);
        }
    }
}

#[test]
fn a_spare_nibble_must_be_zero() {
    for (number, _, bytes, _) in sponge_sizes() {
        for spare in 1..16 {
            let mut image = vec![0xa0; bytes];
            image[bytes - 1] |= spare;
            if number == 1 || number == 3 {
                expect_refused(number, &image, 6);
            } else {
                // The last nibble belongs to the state.
                assert_eq!(permute(number, &mut image), 0);
            }
        }
    }
}

#[test]
fn images_of_the_right_length_are_permuted() {
    for (number, _, bytes, _) in sponge_sizes() {
        for call in [permute, unpermute] {
            let mut image = vec![0xa0; bytes];
            assert_eq!(call(number, &mut image), 0, "variant {number}");
            assert_ne!(image, vec![0xa0; bytes], "variant {number}");
        }
    }
}

#[test]
fn unknown_variants_hash_nothing() {
    let long = vec![0; 16_777_216];
    for number in UNKNOWN {
        for message in [&long[..0], &long[..1], &long[..]] {
            assert_eq!(digest(number, message), Err(1));
            assert_eq!(end_state(number, message), Err(1));
            assert_eq!(digest_with(number, Padding::LowestFreeBit, message), Err(1));
        }
    }
}

#[test]
fn messages_past_the_limit_are_refused() {
    let long = vec![0; 16_777_216];
    for (number, ..) in SIZES {
        assert_eq!(digest(number, &long), Err(4));
        assert_eq!(end_state(number, &long), Err(4));
        assert_eq!(digest_with(number, Padding::LowestFreeBit, &long), Err(4));
    }
}

/// By the check alone: to hash so long a message takes too long for a test.
#[test]
fn messages_of_the_limit_pass() {
    let long = vec![0; 16_777_216];
    for (number, ..) in SIZES {
        let check = |bytes| message_check(number, Message::whole(bytes));
        let variant = check(&long[1..]).expect("not refused");
        assert_eq!(variant.number, number);
        assert_eq!(check(&long), Err(4));
    }
}

#[test]
fn results_have_the_known_lengths() {
    for (number, _, image_bytes, digest_bytes) in SIZES {
        assert_eq!(digest(number, b"abc").map(|d| d.len()), Ok(digest_bytes));
        assert_eq!(end_state(number, b"abc").map(|s| s.len()), Ok(image_bytes));
    }
}
