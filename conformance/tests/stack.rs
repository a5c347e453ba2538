//! The stack that each exported function uses, done or refused: less than the
//! header says, with some room. `cargo test --release --test stack --
//! --nocapture` prints it.

use std::collections::BTreeMap;
use std::sync::LazyLock;

use wickslate_conformance::faults::{self, Call, Fault, LONG};
use wickslate_conformance::header::{self, declared};
use wickslate_conformance::make::{bits_of, filled_manifest, places, well_formed};
use wickslate_conformance::random::Random;
use wickslate_conformance::settings;
use wickslate_conformance::stack::{depth, Function};
use wickslate_conformance::wickslate::{Answer, Cursor};
use wickslate_reference::{Variant, MESSAGE_LIMIT, VARIANTS};

// By their addresses alone.
extern "C" {
    fn wickslate_start();
    fn wickslate_update();
    fn wickslate_update_bits();
    fn wickslate_finish();
    fn wickslate_digest();
    fn wickslate_end_state();
    fn wickslate_hash();
    fn wickslate_hash_bits();
    fn wickslate_permute();
    fn wickslate_unpermute();
    fn wickslate_lesamnta_encrypt();
    fn wickslate_lesamnta_decrypt();
    fn wickslate_recover();
    fn wickslate_recover_bits();
    fn wickslate_entry();
    fn wickslate_advance();
    fn wickslate_check_entry();
    fn wickslate_hash_list();
    fn wickslate_check_manifest();
}

/// The bytes between what was seen and what the header says, at least.
const ROOM: usize = 64;

/// The lengths of messages, of which the last has many blocks.
const LENGTHS: [usize; 13] = [0, 1, 2, 3, 4, 5, 9, 15, 16, 17, 18, 36, 500];

/// The totals in bytes below this one hold bits in every number that whole
/// bytes leave: Lesamnta-LW holds none again after sixteen, and the others
/// sooner.
const TOTALS: u32 = 16;

static MESSAGE: LazyLock<Vec<u8>> = LazyLock::new(|| Random::of_test("stack").bytes(500));

/// The address and the length of bytes that a call reads.
fn read(bytes: &[u8]) -> [usize; 2] {
    [bytes.as_ptr() as usize, bytes.len()]
}

/// The address and the length of bytes that a call may write.
fn lent(bytes: &mut [u8]) -> [usize; 2] {
    [bytes.as_mut_ptr() as usize, bytes.len()]
}

/// The maximum number of bytes of stack that each function has used.
#[derive(Default)]
struct Deepest(BTreeMap<&'static str, usize>);

impl Deepest {
    fn call(&mut self, name: &'static str, function: Function, words: &[usize]) -> u32 {
        // SAFETY: the callers below pass what the functions take.
        let (Answer(answer), used) = unsafe { depth(function, words) };
        let deepest = self.0.entry(name).or_default();
        *deepest = used.max(*deepest);
        answer
    }

    fn start(&mut self, call: &Call) -> u32 {
        let mut h = call.h;
        let words = [&raw mut h as usize, call.number as usize];
        self.call("start", wickslate_start, &words)
    }

    fn update(&mut self, call: &Call) -> u32 {
        let mut h = call.h;
        let piece = read(call.message);
        let words = [&raw mut h as usize, piece[0], piece[1]];
        self.call("update", wickslate_update, &words)
    }

    fn update_bits(&mut self, call: &Call) -> u32 {
        let mut h = call.h;
        let (piece, bits) = (read(call.message), call.bits as usize);
        let words = [&raw mut h as usize, piece[0], piece[1], bits];
        self.call("update_bits", wickslate_update_bits, &words)
    }

    fn finish(&mut self, call: &Call) -> u32 {
        let mut h = call.h;
        self.call("finish", wickslate_finish, &[&raw mut h as usize])
    }

    fn read(&mut self, call: &Call, wanted: u32) -> u32 {
        let mut out = call.output();
        let out = lent(&mut out);
        let words = [&raw const call.h as usize, out[0], out[1]];
        match wanted {
            0 => self.call("digest", wickslate_digest, &words),
            _ => self.call("end_state", wickslate_end_state, &words),
        }
    }

    fn hash(&mut self, call: &Call, wanted: u32) -> u32 {
        let mut out = call.output();
        let (number, wanted) = (call.number as usize, wanted as usize);
        let (message, out) = (read(call.message), lent(&mut out));
        let words = [number, message[0], message[1], wanted, out[0], out[1]];
        self.call("hash", wickslate_hash, &words)
    }

    fn hash_bits(&mut self, call: &Call, wanted: u32) -> u32 {
        let mut out = call.output();
        let (number, bits, wanted) = (call.number as usize, call.bits as usize, wanted as usize);
        let (message, out) = (read(call.message), lent(&mut out));
        let words = [number, message[0], message[1], bits, wanted, out[0], out[1]];
        self.call("hash_bits", wickslate_hash_bits, &words)
    }

    fn permute(&mut self, call: &Call) -> u32 {
        let mut image = call.image.clone();
        let image = lent(&mut image);
        let words = [call.number as usize, image[0], image[1]];
        self.call("permute", wickslate_permute, &words)
    }

    fn unpermute(&mut self, call: &Call) -> u32 {
        let mut image = call.image.clone();
        let image = lent(&mut image);
        let words = [call.number as usize, image[0], image[1]];
        self.call("unpermute", wickslate_unpermute, &words)
    }

    /// Lesamnta-LW's cipher and its inverse, with the bytes of an image and of
    /// some message. They answer nothing.
    fn cipher(&mut self, call: &Call) {
        let mut state: [u8; 32] = call.image[..].try_into().expect("an image");
        let key = &MESSAGE[..16];
        let words = [key.as_ptr() as usize, state.as_mut_ptr() as usize];
        self.call("lesamnta_encrypt", wickslate_lesamnta_encrypt, &words);
        self.call("lesamnta_decrypt", wickslate_lesamnta_decrypt, &words);
        assert_eq!(state[..], call.image, "there and back");
    }

    fn recover(&mut self, call: &Call) -> u32 {
        let mut out = call.output();
        let (number, place) = (call.number as usize, call.place);
        let (message, image, out) = (read(call.message), read(&call.image), lent(&mut out));
        let words = [
            number, message[0], message[1], place, image[0], image[1], out[0], out[1],
        ];
        self.call("recover", wickslate_recover, &words)
    }

    fn recover_bits(&mut self, call: &Call) -> u32 {
        let mut out = call.output();
        let (number, bits, place) = (call.number as usize, call.bits as usize, call.place);
        let (message, image, out) = (read(call.message), read(&call.image), lent(&mut out));
        let words = [
            number, message[0], message[1], bits, place, image[0], image[1], out[0], out[1],
        ];
        self.call("recover_bits", wickslate_recover_bits, &words)
    }

    fn entry(&mut self, call: &Call) -> u32 {
        let list = call.list();
        let list = read(&list);
        let (mut offset, mut length) = (0_u32, 0_u32);
        let pair = [&raw mut offset as usize, &raw mut length as usize];
        let words = [list[0], list[1], call.entry, pair[0], pair[1]];
        self.call("entry", wickslate_entry, &words)
    }

    fn advance(&mut self, call: &Call) -> u32 {
        let list = call.list();
        let mut cursor = Cursor::at(&list, call.entry);
        let (mut offset, mut length) = (0_u32, 0_u32);
        let pair = [&raw mut offset as usize, &raw mut length as usize];
        let words = [&raw mut cursor as usize, pair[0], pair[1]];
        self.call("advance", wickslate_advance, &words)
    }

    fn check_entry(&mut self, call: &Call) -> u32 {
        let list = call.list();
        let (list, buffer) = (read(&list), read(call.message));
        let words = [list[0], list[1], buffer[0], buffer[1], call.entry];
        self.call("check_entry", wickslate_check_entry, &words)
    }

    fn hash_list(&mut self, call: &Call, wanted: u32) -> u32 {
        let (list, mut out) = (call.list(), call.output());
        let (number, wanted) = (call.number as usize, wanted as usize);
        let (list, buffer, out) = (read(&list), read(call.message), lent(&mut out));
        let words = [
            number, list[0], list[1], buffer[0], buffer[1], wanted, out[0], out[1],
        ];
        self.call("hash_list", wickslate_hash_list, &words)
    }

    fn check_manifest(&mut self, call: &Call) -> u32 {
        let words = read(&call.manifest);
        self.call("check_manifest", wickslate_check_manifest, &words)
    }

    /// A call without a fault, and with each of them.
    fn each(
        &mut self,
        sound: &Call,
        faults: &[Fault],
        answer: impl Fn(&mut Deepest, &Call) -> u32,
    ) {
        assert_eq!(answer(self, sound), 0, "no fault");
        for fault in faults {
            assert_eq!(answer(self, &fault.spoil(sound)), fault.answer);
        }
    }

    /// Every function, done and with each refusal.
    fn refused_calls(&mut self, variant: &Variant) {
        let sound = Call::sound(variant);
        self.each(&sound, &faults::of_start(variant), Deepest::start);
        self.each(&sound, &faults::of_update(variant), Deepest::update);
        self.each(&sound, &faults::of_finish(variant), Deepest::finish);
        if variant.is_sponge() {
            self.each(&sound, &faults::of_permute(variant), Deepest::permute);
            self.each(&sound, &faults::of_permute(variant), Deepest::unpermute);
        } else {
            self.cipher(&sound);
        }
        self.each(&sound, &faults::of_recover(variant), Deepest::recover);
        self.each(&sound, &faults::of_entry(), Deepest::entry);
        self.each(&sound, &faults::of_entry(), Deepest::advance);
        self.each(&sound, &faults::of_check_entry(), Deepest::check_entry);
        let faults = faults::of_check_manifest(variant);
        self.each(&sound, &faults, Deepest::check_manifest);
        let ending = sound.clone().with_bits(3);
        self.each(
            &ending,
            &faults::of_update_bits(variant),
            Deepest::update_bits,
        );
        let faults = faults::of_recover_bits(variant);
        self.each(&ending, &faults, Deepest::recover_bits);
        for wanted in [0, 1] {
            let faults = faults::of_read(variant, wanted);
            self.each(&Call::closed(variant), &faults, |deepest, call| {
                deepest.read(call, wanted)
            });
            let faults = faults::of_hash(variant, wanted);
            self.each(&sound, &faults, |deepest, call| deepest.hash(call, wanted));
            let faults = faults::of_hash_bits(variant, wanted);
            self.each(&ending, &faults, |deepest, call| {
                deepest.hash_bits(call, wanted)
            });
            let faults = faults::of_hash_list(variant, wanted);
            self.each(&sound, &faults, |deepest, call| {
                deepest.hash_list(call, wanted)
            });
        }
    }

    /// A message in one piece after 0, 1, .. bytes before it, a whole one, and
    /// a list of 512 segments, of which the last is all of it that is not too
    /// long with the list; a manifest of 512 records.
    fn message_calls(&mut self, call: &mut Call, variant: &Variant, totals: u32) {
        let mut random = Random::of_test("message_calls");
        for total in 0..totals {
            call.h = well_formed(&mut random, variant, 0, 8 * total);
            assert_eq!(self.update(call), 0);
            assert_eq!(self.finish(call), 0);
        }
        call.entries = vec![(0, 0); 512];
        call.entries[511].1 = call.message.len().min(MESSAGE_LIMIT - 2 - 8 * 512) as u32;
        call.entry = 511;
        for wanted in [0, 1] {
            assert_eq!(self.hash(call, wanted), 0);
            assert_eq!(self.hash_list(call, wanted), 0);
        }
        assert_eq!(self.entry(call), 0);
        assert_eq!(self.advance(call), 0);
        assert_eq!(self.check_entry(call), 0);
        call.manifest = filled_manifest(variant, 0..512);
        assert_eq!(self.check_manifest(call), 0);
    }

    /// The first block lost, one in the middle and the last, of the message
    /// and of none.
    fn recover_calls(&mut self, call: &mut Call, variant: &Variant) {
        for place in some_places(variant, 8 * call.message.len()) {
            call.place = place;
            self.each(call, &faults::no_block(variant), Deepest::recover);
        }
    }

    /// The same calls of a message whose last byte contributes some bits, and
    /// the end of a message after each number of bits.
    fn bits_calls(&mut self, call: &mut Call, variant: &Variant, totals: u32) {
        let mut random = Random::of_test("bits_calls");
        for total in 0..totals {
            call.h = well_formed(&mut random, variant, 0, 8 * total);
            assert_eq!(self.update_bits(call), 0);
        }
        for total in 0..variant.block_bits {
            call.h = well_formed(&mut random, variant, 0, total as u32);
            assert_eq!(self.finish(call), 0);
        }
        for wanted in [0, 1] {
            assert_eq!(self.hash_bits(call, wanted), 0);
        }
        for place in some_places(variant, bits_of(call.message, call.bits)) {
            call.place = place;
            self.each(call, &faults::no_block(variant), Deepest::recover_bits);
        }
    }
}

/// The first place at which a block can be found, one in the middle and the
/// last.
fn some_places(variant: &Variant, bits: usize) -> [usize; 3] {
    let places = places(variant, bits);
    [places.start, places.end / 2, places.end - 1].map(|place| place.max(places.start))
}

/// The bytes that the header says each function needs, in its order.
fn stated() -> Vec<(String, usize)> {
    let mut stated = Vec::new();
    let mut last = None;
    for line in header::text().lines() {
        if let Some(words) = line.strip_prefix(" * Stack:") {
            let digits: String = words.chars().filter(char::is_ascii_digit).collect();
            last = Some(digits.parse().expect("a number of bytes"));
        }
        if let Some(name) = declared(line) {
            stated.push((name.to_string(), last.take().expect("a number of bytes")));
        }
    }
    stated
}

#[test]
fn every_call_leaves_some_of_what_the_header_says() {
    let mut deepest = Deepest::default();
    for variant in &VARIANTS {
        deepest.refused_calls(variant);
        for bytes in LENGTHS {
            let mut call = Call::about(variant, &MESSAGE[..bytes]);
            deepest.message_calls(&mut call, variant, TOTALS);
            deepest.recover_calls(&mut call, variant);
        }
        for bytes in LENGTHS.into_iter().filter(|&bytes| bytes > 0) {
            for bits in [1, 7, 8] {
                let mut call = Call::about(variant, &MESSAGE[..bytes]).with_bits(bits);
                deepest.bits_calls(&mut call, variant, TOTALS);
            }
        }
    }
    if settings::minutes().is_some() {
        // The sponge that takes the least time for a byte.
        let variant = &VARIANTS[4];
        let mut call = Call::about(variant, &LONG[..MESSAGE_LIMIT]);
        deepest.message_calls(&mut call, variant, 1);
        deepest.recover_calls(&mut call, variant);
        deepest.bits_calls(&mut call.with_bits(7), variant, 1);
    }
    let stated = stated();
    assert_eq!(stated.len(), deepest.0.len(), "a function is left out");
    println!("| Function | bytes of stack, measured | stated in the header |");
    println!("|---|--:|--:|");
    for (name, stated) in &stated {
        let used = deepest.0[name.as_str()];
        println!("| `wickslate_{name}` | {used} | {stated} |");
    }
    for (name, stated) in stated {
        let used = deepest.0[name.as_str()];
        assert!(used + ROOM <= stated, "{name}: {used} of {stated} bytes");
    }
}
