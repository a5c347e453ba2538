//! The running hash against the whole message.

mod generator;

use generator::Generator;
use wickslate_reference::running::{start, HELD_BYTES};
use wickslate_reference::{digest, end_state, VARIANTS};

/// Pieces of 0 to 7 bytes, so that every variant's blocks are cut.
#[test]
fn pieces_give_what_the_whole_message_gives() {
    let mut generator = Generator::new(0x5749_434b_534c_4154);
    for variant in &VARIANTS {
        for bytes in [0, 1, 5, 9, 15, 16, 17, 40] {
            let message = generator.bytes(bytes);
            let (mut status, mut running) = start(variant.number);
            let mut rest = message.as_slice();
            while !rest.is_empty() {
                let cut = usize::from(generator.bytes(1)[0] % 8).min(rest.len());
                let (piece, behind) = rest.split_at(cut);
                assert_eq!(status, 0);
                (status, running) = running.update(piece);
                rest = behind;
            }
            assert_eq!(status, 0);
            let (status, closed) = running.finish();
            assert_eq!(status, 0);
            for image in [false, true] {
                let whole = match image {
                    true => end_state(variant.number, &message).unwrap(),
                    false => digest(variant.number, &message).unwrap(),
                };
                let mut out = vec![0xa0; whole.len()];
                assert_eq!(closed.read(image, &mut out), 0);
                assert_eq!(out, whole);
            }
        }
    }
}

/// A block of Lesamnta-LW is held up to its last byte, and closing takes two
/// blocks, or one if none is begun.
#[test]
fn lesamnta_lw_holds_up_to_fifteen_bytes() {
    let message: Vec<u8> = (1..=33).collect();
    for bytes in 0..=message.len() {
        let (status, open) = start(11).1.update(&message[..bytes]);
        assert_eq!((status, open.total as usize), (0, 8 * bytes));
        let first = bytes / 16 * 16;
        let mut held = [0; HELD_BYTES];
        held[..bytes - first].copy_from_slice(&message[first..bytes]);
        assert_eq!(open.held, held, "{bytes} bytes");
        let (_, whole) = start(11).1.update(&message[..first]);
        assert_eq!(open.state, whole.state, "{bytes} bytes");
        let (status, closed) = open.finish();
        assert_eq!(
            (status, closed.total, closed.held),
            (0, open.total, [0; 16])
        );
        let end = end_state(11, &message[..bytes]).unwrap();
        assert_eq!(closed.state[..32], end);
    }
}
