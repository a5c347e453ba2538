//! Padded blocks, and the evidence of Annex B.2 for the byte that SPONGENT
//! adds.

mod hexadecimal;

use hexadecimal::bytes;
use wickslate_reference::bits::{pack, Order};
use wickslate_reference::padding::{added, block, block_count};
use wickslate_reference::{digest_with, padding_table, variant, Message, Padding, BIT_LIMIT};

/// Clause, variant and digest of the SPONGENT examples, all of one message.
const ANNEX_B_2: [(&str, u32, &str); 5] = [
    ("B.2.2", 6, "69971BF96DEF95BFC46822"),
    ("B.2.3", 7, "6B7BA35EB09DE0F8DEF06AE555694C53"),
    ("B.2.4", 8, "13188A4917EA29E258362C047B9BF00C22B5FE91"),
    (
        "B.2.5",
        9,
        "8443B12D2EEE4E09969A183205F5F7F684A711A5BE079A15F4CCDC30",
    ),
    (
        "B.2.6",
        10,
        "67DC8FC8B2EDBA6E55F4E68EC4F2B2196FE38DF9B1A760F4D43B4669160BF5A8",
    ),
];

const MESSAGE: &[u8] = b"Sponge + Present = Spongent";

#[test]
fn annex_b_needs_the_byte_80() {
    println!("{}", padding_table());
    for (clause, number, printed) in ANNEX_B_2 {
        let with = |padding| digest_with(number, padding, MESSAGE).expect("not refused");
        assert_eq!(with(Padding::NextBit), bytes(printed), "{clause}");
        assert_ne!(with(Padding::LowestFreeBit), bytes(printed), "{clause}");
    }
}

#[test]
fn the_printed_table_has_both_digests_of_each_example() {
    let table = padding_table();
    let mut lines = table.lines().skip(1);
    for (clause, number, printed) in ANNEX_B_2 {
        for (byte, padding) in [("80", Padding::NextBit), ("01", Padding::LowestFreeBit)] {
            let line = lines.next().expect("a line for each digest");
            let words: Vec<&str> = line.split_whitespace().collect();
            let name = variant(number).expect("a number from 6 to 10").name;
            assert_eq!(words[..3], [clause, name, byte]);
            let digest = digest_with(number, padding, MESSAGE).expect("not refused");
            assert_eq!(bytes(words[3]), digest);
            assert_eq!(byte == "80", words[3] == printed.to_lowercase());
        }
    }
    assert_eq!(lines.next(), None);
}

/// The blocks of a message of whole bytes in hexadecimal.
fn blocks(number: u32, padding: Padding, message: &[u8]) -> Vec<String> {
    blocks_of(number, padding, Message::whole(message))
}

/// The blocks of a message in hexadecimal; a block of PHOTON may end in the
/// middle of a byte, and no digit is printed for what the byte has left.
fn blocks_of(number: u32, padding: Padding, message: Message) -> Vec<String> {
    let variant = variant(number).expect("a number from 1 to 11");
    let digits = |bits: &[bool]| -> String {
        let bytes = pack(Order::HighestFirst, bits);
        let all: String = bytes.iter().map(|byte| format!("{byte:02X}")).collect();
        all[..bits.len() / 4].to_string()
    };
    let message = message.bits(variant.family);
    (0..block_count(variant, message.len()))
        .map(|index| digits(&block(variant, padding, &message, index)))
        .collect()
}

#[test]
fn known_blocks() {
    let next = |number, message| blocks(number, Padding::NextBit, message);
    assert_eq!(next(1, &[]), ["80000"]);
    assert_eq!(next(1, &[0xab, 0xcd]), ["ABCD8"]);
    assert_eq!(next(3, &[0xab, 0xcd]), ["ABCD80000"]);
    assert_eq!(next(6, &[]), ["80"]);
    assert_eq!(next(8, &[0xab]), ["AB80"]);
}

#[test]
fn a_full_last_block_is_followed_by_one_of_padding() {
    let next = |number, message| blocks(number, Padding::NextBit, message);
    assert_eq!(next(1, &[1, 2, 3, 4, 5]), ["01020", "30405", "80000"]);
    assert_eq!(next(6, &[0xab]), ["AB", "80"]);
    assert_eq!(next(10, &[0xab, 0xcd]), ["ABCD", "8000"]);
}

#[test]
fn known_blocks_of_the_other_reading() {
    let lowest = |number, message| blocks(number, Padding::LowestFreeBit, message);
    assert_eq!(lowest(6, &[]), ["01"]);
    assert_eq!(lowest(8, &[0xab]), ["AB01"]);
    assert_eq!(lowest(8, &[0xab, 0xcd]), ["ABCD", "0100"]);
    // The other families have no other reading.
    assert_eq!(lowest(1, &[0xab, 0xcd]), ["ABCD8"]);
    assert_eq!(
        lowest(11, &[0xab, 0xcd]),
        blocks(11, Padding::NextBit, &[0xab, 0xcd])
    );
}

/// So many bits, all of them 1, and bits 1 behind them that do not count.
fn ones(bits: usize) -> Vec<String> {
    let bytes = vec![0xff; bits.div_ceil(8)];
    let message = match bits {
        0 => Message::whole(&bytes),
        _ => Message::ending(&bytes, (bits as u32 - 1) % 8 + 1),
    };
    blocks_of(11, Padding::NextBit, message)
}

/// The last block of Lesamnta-LW ends in the number of bits. The 1 stands there
/// too if the message fills its blocks, and otherwise in the block before.
#[test]
fn lesamnta_lw_ends_in_the_length() {
    const FULL: &str = "FFFFFFFFFFFFFFFFFFFFFFFFFFFFFFFF";
    const TWO_ONES: &str = "C0000000000000000000000000000000";
    let expected: [(usize, &[&str]); 8] = [
        (0, &["80000000000000000000000000000000"]),
        (1, &[TWO_ONES, "00000000000000000000000000000001"]),
        (127, &[FULL, "0000000000000000000000000000007F"]),
        (128, &[FULL, "80000000000000000000000000000080"]),
        (129, &[FULL, TWO_ONES, "00000000000000000000000000000081"]),
        (255, &[FULL, FULL, "000000000000000000000000000000FF"]),
        (256, &[FULL, FULL, "80000000000000000000000000000100"]),
        (
            257,
            &[FULL, FULL, TWO_ONES, "00000000000000000000000000000101"],
        ),
    ];
    for (bits, blocks) in expected {
        assert_eq!(ones(bits), blocks, "{bits} bits");
    }
}

/// A 1, k + 63 zeros and 64 bits, with the least k that fills blocks of 128 bits
/// behind the message.
#[test]
fn lesamnta_lw_adds_what_its_rule_says() {
    let lesamnta_lw = variant(11).expect("a number from 1 to 11");
    for bits in (0..1000).chain(BIT_LIMIT - 300..=BIT_LIMIT) {
        let k = (0..128)
            .find(|k| (bits + k) % 128 == 0)
            .expect("one of 128");
        let mut rule = vec![true];
        rule.resize(1 + k + 63, false);
        rule.extend((0..64).rev().map(|place| bits >> place & 1 == 1));
        assert_eq!(added(lesamnta_lw, Padding::NextBit, bits), rule, "{bits}");
        let all = 128 * block_count(lesamnta_lw, bits);
        assert_eq!(bits + rule.len(), all, "{bits}");
    }
}
