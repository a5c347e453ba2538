//! Empty slices, whose address is that of no memory at all.

use wickslate_conformance::lent::filled_tail;
use wickslate_conformance::make::{list, places};
use wickslate_conformance::wickslate::{self, Hasher};
use wickslate_reference::{digest, VARIANTS};

fn nowhere() -> Vec<u8> {
    let empty = Vec::new();
    assert_eq!(empty.as_ptr() as usize, 1, "an address in no page");
    empty
}

#[test]
fn an_empty_message_or_piece() {
    for variant in &VARIANTS {
        let expected = digest(variant.number, b"").expect("the empty message");
        let mut out = vec![0; expected.len()];
        assert!(wickslate::hash(variant.number, &nowhere(), 0, &mut out).is_done());
        assert_eq!(out, expected);

        let mut h = Hasher::default();
        assert!(wickslate::start(&mut h, variant.number).is_done());
        assert!(wickslate::update(&mut h, &nowhere()).is_done());
        assert!(wickslate::finish(&mut h).is_done());
        out.fill(0);
        assert!(wickslate::digest(&h, &mut out).is_done());
        assert_eq!(out, expected);
    }
}

/// No byte has any of its bits, whatever number is given.
#[test]
fn an_empty_message_or_piece_with_a_bit_number() {
    for variant in &VARIANTS {
        let number = variant.number;
        let image = vec![0; variant.image_bytes()];
        let mut h = Hasher::default();
        assert!(wickslate::start(&mut h, number).is_done());
        let begun = filled_tail(h);
        for bits in 0..=9 {
            let none = nowhere();
            let mut h = begun;
            assert_eq!(wickslate::update_bits(&mut h, &none, bits).0, 15);
            assert_eq!(filled_tail(h), begun);
            let (out, block) = (&mut [0; 36], &mut [0; 16]);
            assert_eq!(wickslate::hash_bits(number, &none, bits, 1, out).0, 15);
            let recover = wickslate::recover_bits(number, &none, bits, 0, &image, block);
            assert_eq!(recover.0, 15);
        }
    }
}

#[test]
fn an_empty_output_or_image() {
    for variant in &VARIANTS {
        let number = variant.number;
        let mut h = Hasher::default();
        assert!(wickslate::start(&mut h, number).is_done());
        assert!(wickslate::finish(&mut h).is_done());
        assert_eq!(wickslate::digest(&h, &mut nowhere()).0, 5);
        assert_eq!(wickslate::end_state(&h, &mut nowhere()).0, 5);
        assert_eq!(wickslate::hash(number, b"abc", 1, &mut nowhere()).0, 5);
        let bits = wickslate::hash_bits(number, b"abc", 3, 1, &mut nowhere());
        assert_eq!(bits.0, 5);
        let refusal = if variant.is_sponge() { 6 } else { 17 };
        assert_eq!(wickslate::permute(number, &mut nowhere()).0, refusal);
        assert_eq!(wickslate::unpermute(number, &mut nowhere()).0, refusal);
        let (message, image) = (nowhere(), vec![0; variant.image_bytes()]);
        let recover =
            |image: &[u8]| wickslate::recover(number, &message, 0, image, &mut nowhere()).0;
        assert_eq!(recover(&nowhere()), 6);
        assert_eq!(recover(&image), 5);
        let place = places(variant, 3).start;
        let recover_bits =
            |image: &[u8]| wickslate::recover_bits(number, b"a", 3, place, image, &mut nowhere()).0;
        assert_eq!(recover_bits(&nowhere()), 6);
        assert_eq!(recover_bits(&image), 5);
    }
}

#[test]
fn an_empty_list_or_buffer() {
    let (mut offset, mut length) = (4, 5);
    let answer = wickslate::entry(&nowhere(), 0, &mut offset, &mut length);
    assert_eq!((answer.0, offset, length), (7, 4, 5));
    assert_eq!(wickslate::check_entry(&nowhere(), &nowhere(), 0).0, 7);
    for entry in [(0, 1), (1, 0), (1, 1)] {
        assert_eq!(wickslate::check_entry(&list(&[entry]), &nowhere(), 0).0, 11);
    }
    for variant in &VARIANTS {
        let number = variant.number;
        let mut out = vec![0; variant.digest_bytes()];
        for (count, list) in (0..).zip([nowhere(), list(&[(0, 0)]), list(&[(0, 0), (0, 0)])]) {
            // No segment has a byte.
            let message = [&[0, count][..], &list].concat();
            assert!(wickslate::hash_list(number, &list, &nowhere(), 0, &mut out).is_done());
            assert_eq!(digest(number, &message).as_deref(), Ok(&out[..]));
            out.fill(0);
        }
        for entry in [(0, 1), (1, 0), (1, 1)] {
            let answer = wickslate::hash_list(number, &list(&[entry]), &nowhere(), 0, &mut out);
            assert_eq!(answer.0, 11, "at entry 0");
        }
    }
}

#[test]
fn an_empty_manifest() {
    assert!(wickslate::check_manifest(&nowhere()).is_done());
}
