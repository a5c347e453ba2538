//! The checks of each operation in their order. A call is made with every
//! fault alone and with every two at once, and the answer is always that of
//! the earlier check.

use wickslate_conformance::compare;
use wickslate_conformance::faults::{self, Call, Fault};
use wickslate_reference::{sponges, VARIANTS};

/// Makes a call without a fault, with each alone, and with every two. The
/// faults come in the order of the checks.
fn expect_order(sound: &Call, faults: &[Fault], answer: impl Fn(&Call) -> u32) {
    assert_eq!(answer(sound), 0, "no fault");
    for (k, earlier) in faults.iter().enumerate() {
        assert_eq!(answer(&earlier.spoil(sound)), earlier.answer, "one fault");
        for later in &faults[k + 1..] {
            // The earlier fault comes last, so that the other leaves it.
            let spoilt = earlier.spoil(&later.spoil(sound));
            assert_eq!(answer(&spoilt), earlier.answer, "and {}", later.answer);
        }
    }
}

#[test]
fn start() {
    for variant in &VARIANTS {
        expect_order(&Call::sound(variant), &faults::of_start(variant), |call| {
            compare::start(call.h, call.number).0
        });
    }
}

#[test]
fn update() {
    for variant in &VARIANTS {
        expect_order(&Call::sound(variant), &faults::of_update(variant), |call| {
            compare::update(call.h, call.message).0
        });
    }
}

#[test]
fn update_bits() {
    for variant in &VARIANTS {
        let sound = Call::sound(variant).with_bits(3);
        expect_order(&sound, &faults::of_update_bits(variant), |call| {
            compare::update_bits(call.h, call.message, call.bits).0
        });
    }
}

#[test]
fn finish() {
    for variant in &VARIANTS {
        expect_order(&Call::sound(variant), &faults::of_finish(variant), |call| {
            compare::finish(call.h).0
        });
    }
}

#[test]
fn digest_and_end_state() {
    for variant in &VARIANTS {
        for wanted in [0, 1] {
            let faults = faults::of_read(variant, wanted);
            expect_order(&Call::closed(variant), &faults, |call| {
                compare::read(call.h, wanted != 0, &call.output()).0
            });
        }
    }
}

#[test]
fn hash() {
    for variant in &VARIANTS {
        for wanted in [0, 1] {
            let faults = faults::of_hash(variant, wanted);
            expect_order(&Call::sound(variant), &faults, |call| {
                compare::hash(call.number, call.message, wanted, &call.output()).0
            });
        }
    }
}

#[test]
fn hash_bits() {
    for variant in &VARIANTS {
        for wanted in [0, 1] {
            let sound = Call::sound(variant).with_bits(3);
            let faults = faults::of_hash_bits(variant, wanted);
            expect_order(&sound, &faults, |call| {
                let (number, message, bits) = (call.number, call.message, call.bits);
                compare::hash_bits(number, message, bits, wanted, &call.output()).0
            });
        }
    }
}

#[test]
fn permute_and_unpermute() {
    for variant in sponges() {
        for back in [false, true] {
            let faults = faults::of_permute(variant);
            expect_order(&Call::sound(variant), &faults, |call| {
                compare::permute(call.number, &call.image, back).0
            });
        }
    }
}

#[test]
fn recover() {
    for variant in &VARIANTS {
        let faults = faults::of_recover(variant);
        expect_order(&Call::sound(variant), &faults, |call| {
            let (number, message, place) = (call.number, call.message, call.place);
            compare::recover(number, message, place, &call.image, &call.output()).0
        });
    }
}

#[test]
fn recover_bits() {
    for variant in &VARIANTS {
        let sound = Call::sound(variant).with_bits(3);
        let faults = faults::of_recover_bits(variant);
        expect_order(&sound, &faults, |call| {
            let (number, message, bits) = (call.number, call.message, call.bits);
            let (place, image, out) = (call.place, &call.image, call.output());
            compare::recover_bits(number, message, bits, place, image, &out).0
        });
    }
}

#[test]
fn entry() {
    let sound = Call::sound(&VARIANTS[0]);
    expect_order(&sound, &faults::of_entry(), |call| {
        compare::entry(&call.list(), call.entry).0
    });
}

#[test]
fn advance() {
    let sound = Call::sound(&VARIANTS[0]);
    expect_order(&sound, &faults::of_entry(), |call| {
        compare::advance(&call.list(), call.entry).0
    });
}

#[test]
fn check_entry() {
    let sound = Call::sound(&VARIANTS[0]);
    expect_order(&sound, &faults::of_check_entry(), |call| {
        compare::check_entry(&call.list(), call.message, call.entry)
    });
}

#[test]
fn hash_list() {
    for (variant, wanted) in VARIANTS.iter().zip([0, 1].into_iter().cycle()) {
        let faults = faults::of_hash_list(variant, wanted);
        expect_order(&Call::sound(variant), &faults, |call| {
            let (list, out) = (call.list(), call.output());
            compare::hash_list(call.number, &list, call.message, wanted, &out).0
        });
    }
}

#[test]
fn check_manifest() {
    for variant in &VARIANTS {
        let faults = faults::of_check_manifest(variant);
        expect_order(&Call::sound(variant), &faults, |call| {
            compare::check_manifest(&call.manifest)
        });
    }
}
