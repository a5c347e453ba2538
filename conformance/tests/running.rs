//! The running hash: pieces of whole bytes cut anywhere, the stages, and the
//! refusals 2, 3, 16, 4 and 5 alone and against their neighbours.

use wickslate_conformance::compare::{finish, hash, read, start, update};
use wickslate_conformance::make::{
    block_edges, none, result_bytes, spare_held, spare_state, total, variant, well_formed, UNKNOWN,
};
use wickslate_conformance::random::Random;
use wickslate_conformance::settings::amount;
use wickslate_conformance::wickslate::Hasher;
use wickslate_reference::{Variant, BIT_LIMIT, MESSAGE_LIMIT, VARIANTS};

/// The greatest total, which is one of bits.
const LIMIT: u32 = BIT_LIMIT as u32;

fn begun(variant: &Variant) -> Hasher {
    let (answer, h) = start(none(), variant.number);
    assert_eq!(answer, 0);
    h
}

/// The running hash after these pieces and the end of the message.
fn closed(variant: &Variant, pieces: &[&[u8]]) -> Hasher {
    let open = pieces.iter().fold(begun(variant), |h, piece| {
        let (answer, next) = update(h, piece);
        assert_eq!(answer, 0);
        next
    });
    let (answer, h) = finish(open);
    assert_eq!(answer, 0);
    h
}

/// What is read must be what the whole message gives.
fn expect_whole(variant: &Variant, h: Hasher, message: &[u8]) {
    for wanted in [0, 1] {
        let out = vec![0x5e; result_bytes(variant, wanted) + 3];
        let given = read(h, wanted != 0, &out);
        assert_eq!(given, hash(variant.number, message, wanted, &out));
    }
}

#[test]
fn pieces_cut_anywhere() {
    let mut random = Random::of_test("pieces_cut_anywhere");
    for round in 0..amount(12, 1) {
        for variant in &VARIANTS {
            let length = random.below(200);
            let message = random.bytes(length);
            let bound = [2, 4, 8, 40][round % 4];
            let pieces = random.cut(&message, bound);
            expect_whole(variant, closed(variant, &pieces), &message);
        }
    }
}

#[test]
fn cuts_at_the_edges_of_blocks() {
    let mut random = Random::of_test("cuts_at_the_edges_of_blocks");
    for variant in &VARIANTS {
        for cut in &block_edges(variant)[..amount(24, 4)] {
            let message = random.bytes(cut + 6);
            let pieces = [&message[..*cut], b"", &message[*cut..]];
            expect_whole(variant, closed(variant, &pieces), &message);
        }
    }
}

#[test]
fn calls_go_on_from_any_well_formed_state() {
    let mut random = Random::of_test("calls_go_on_from_any_well_formed_state");
    for _ in 0..amount(1500, 30) {
        let variant = variant(&mut random);
        let total = total(&mut random);
        let h = well_formed(&mut random, variant, 0, total);
        let length = random.below(20);
        let piece = random.bytes(length);
        let expected = match total as usize + 8 * length {
            _ if !total.is_multiple_of(8) => 16,
            ..=BIT_LIMIT => 0,
            _ => 4,
        };
        assert_eq!(update(h, &piece).0, expected);
        let (answer, ended) = finish(h);
        assert_eq!(answer, 0);
        for image in [false, true] {
            assert_eq!(read(ended, image, &[0x5e; 36]).0, 0);
        }
    }
}

#[test]
fn a_start_replaces_anything_if_the_variant_is_known() {
    let mut random = Random::of_test("a_start_replaces_anything");
    for number in (0..=1024).chain(UNKNOWN) {
        for before in [anything(&mut random), begun(&VARIANTS[0])] {
            let (answer, after) = start(before, number);
            let known = (1..=11).contains(&number);
            assert_eq!(answer, if known { 0 } else { 1 });
            let kept = u32::from(before.variant);
            assert_eq!(u32::from(after.variant), if known { number } else { kept });
        }
    }
}

/// A running hash of random bytes.
fn anything(random: &mut Random) -> Hasher {
    Hasher {
        variant: random.array::<1>()[0],
        stage: random.array::<1>()[0],
        total: u32::from_ne_bytes(random.array()),
        state: random.array(),
        held: random.array(),
        ..none()
    }
}

/// Every call on it is refused with 2, whatever else is wrong.
fn expect_malformed(h: Hasher) {
    for piece in [&b""[..], b"\xff", &[0; 50]] {
        assert_eq!(update(h, piece).0, 2, "{h:?}");
    }
    assert_eq!(finish(h).0, 2, "{h:?}");
    for image in [false, true] {
        for bytes in [0, 36] {
            assert_eq!(read(h, image, &vec![0x5e; bytes]).0, 2, "{h:?}");
        }
    }
}

#[test]
fn random_bytes_are_a_running_hash() {
    let mut random = Random::of_test("random_bytes_are_a_running_hash");
    for _ in 0..amount(4000, 100) {
        // Every held byte is random: that a closed or a short one holds only
        // zeros by chance is out of the question, but a full one may.
        let mut h = anything(&mut random);
        h.stage |= 2;
        expect_malformed(h);
        h.stage &= 1;
        h.variant = random.below(13) as u8;
        h.total %= 2 * LIMIT;
        for piece in [&b""[..], b"\xff\x00"] {
            update(h, piece);
        }
        finish(h);
        read(h, false, &[0x5e; 36]);
    }
}

#[test]
fn unknown_variants_are_malformed() {
    for number in [0, 12, 13, 16, 127, 128, 255] {
        let h = Hasher {
            variant: number,
            ..none()
        };
        expect_malformed(h);
        expect_malformed(Hasher { stage: 1, ..h });
    }
}

#[test]
fn stages_past_closed_are_malformed() {
    let mut random = Random::of_test("stages_past_closed_are_malformed");
    for stage in 2..=255 {
        let variant = variant(&mut random);
        let h = well_formed(&mut random, variant, 1, 8 * 9);
        expect_malformed(Hasher { stage, ..h });
    }
}

#[test]
fn totals_past_the_limit_are_malformed() {
    let mut random = Random::of_test("totals_past_the_limit_are_malformed");
    for variant in &VARIANTS {
        for total in [LIMIT + 1, LIMIT + 2, LIMIT + 8, 1 << 28, 1 << 31, u32::MAX] {
            for stage in [0, 1] {
                // As many held bits as the total says, so that only the
                // total can be at fault.
                expect_malformed(well_formed(&mut random, variant, stage, total));
            }
        }
    }
}

#[test]
fn each_state_bit_past_the_state_is_malformed() {
    let mut random = Random::of_test("each_state_bit_past_the_state");
    for variant in &VARIANTS {
        for (byte, bit) in spare_state(variant) {
            for stage in [0, 1] {
                let mut h = well_formed(&mut random, variant, stage, 8 * 5);
                h.state[byte] |= bit;
                expect_malformed(h);
            }
        }
    }
}

#[test]
fn each_held_bit_past_those_held_is_malformed() {
    let mut random = Random::of_test("each_held_bit_past_those_held");
    for variant in &VARIANTS {
        // These totals give every number of held bits.
        let every = 0..variant.block_bits as u32;
        let open = every.chain([LIMIT - 1, LIMIT]).map(|total| (0, total));
        for (stage, total) in open.chain([(1, 1)]) {
            let spare = spare_held(variant, stage, total).into_iter();
            for (byte, bit) in spare.step_by(amount(1, 7)) {
                let mut h = well_formed(&mut random, variant, stage, total);
                h.held[byte] |= bit;
                expect_malformed(h);
            }
        }
    }
}

#[test]
fn a_closed_one_takes_nothing_more() {
    let mut random = Random::of_test("a_closed_one_takes_nothing_more");
    let long = vec![0; MESSAGE_LIMIT + 1];
    for variant in &VARIANTS {
        for total in [0, 1, 8, LIMIT - 1, LIMIT] {
            let h = well_formed(&mut random, variant, 1, total);
            assert_eq!(update(h, b"").0, 3);
            assert_eq!(update(h, b"\xff").0, 3);
            assert_eq!(finish(h).0, 3);
        }
        let h = well_formed(&mut random, variant, 1, 7);
        assert_eq!(update(h, &long).0, 3, "and too long");
    }
}

#[test]
fn an_open_one_cannot_be_read() {
    let mut random = Random::of_test("an_open_one_cannot_be_read");
    for variant in &VARIANTS {
        for total in [0, 1, 8, LIMIT - 1, LIMIT] {
            let h = well_formed(&mut random, variant, 0, total);
            for image in [false, true] {
                assert_eq!(read(h, image, &[0x5e; 36]).0, 3);
                assert_eq!(read(h, image, &[]).0, 3, "and too short");
            }
        }
    }
}

#[test]
fn the_total_stops_at_the_limit() {
    let mut random = Random::of_test("the_total_stops_at_the_limit");
    let long = vec![0; MESSAGE_LIMIT + 1];
    for variant in &VARIANTS {
        for left in [0, 1, 2, 5] {
            let h = well_formed(&mut random, variant, 0, LIMIT - 8 * left as u32);
            let (answer, full) = update(h, &long[..left]);
            assert_eq!((answer, full.total), (0, LIMIT));
            assert_eq!(update(full, b"\xff").0, 4);
            assert_eq!(update(full, b"").0, 0);
            assert_eq!(update(h, &long[..left + 1]).0, 4);
        }
        assert_eq!(update(begun(variant), &long).0, 4);
    }
}

#[test]
fn malformed_comes_before_too_long() {
    let mut random = Random::of_test("malformed_comes_before_too_long");
    let long = vec![0; MESSAGE_LIMIT + 1];
    for variant in &VARIANTS {
        for stage in [2, 3] {
            let h = well_formed(&mut random, variant, 0, 3);
            assert_eq!(update(Hasher { stage, ..h }, &long).0, 2);
        }
    }
}

#[test]
fn outputs_one_byte_too_short() {
    let mut random = Random::of_test("outputs_one_byte_too_short");
    for variant in &VARIANTS {
        let h = well_formed(&mut random, variant, 1, 11);
        for wanted in [0, 1] {
            let fits = result_bytes(variant, wanted);
            for bytes in 0..=fits + 4 {
                let (answer, _) = read(h, wanted != 0, &random.bytes(bytes));
                assert_eq!(answer, if bytes < fits { 5 } else { 0 });
            }
        }
    }
}
