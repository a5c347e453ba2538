//! The examples of Annex B, typed from the standard.

mod hexadecimal;

use hexadecimal::bytes;
use wickslate_reference::lesamnta::{g, q, round_constants};
use wickslate_reference::{chain, digest, end_state, image, permute, sponge, unpermute, variant};

/// One example: the state before and after one permutation as images, and a
/// digest.
struct Example {
    clause: &'static str,
    variant: u32,
    before: Vec<u8>,
    after: Vec<u8>,
    message: &'static str,
    digest: &'static str,
}

/// B.1.2 to B.1.6. States are printed row by row; the cell that the packing
/// of an odd number of 4-bit cells leaves over is written as a last 0. In
/// B.1.4 six rows of the initialization value stand with eight cells in the
/// copy at hand; seven are typed, as in its last row.
fn photon_examples() -> [Example; 5] {
    let message = "5468652050484F544F4E204C6967687477656967687420486173682046756E6374696F6E7320\
                   46616D696C79";
    let example = |clause, variant, before: &str, after: &str, digest| Example {
        clause,
        variant,
        before: bytes(before),
        after: bytes(after),
        message,
        digest,
    };
    [
        example(
            "B.1.2",
            1,
            "0 0 0 0 0
             0 0 0 0 0
             0 0 0 0 0
             0 0 0 0 1
             4 1 4 1 0  0",
            "3 3 D 5 F
             6 2 9 B 9
             5 C 4 8 1
             6 5 C E 7
             B 7 7 0 C  0",
            "07D1723459751E368532",
        ),
        example(
            "B.1.3",
            2,
            "0 0 0 0 0 0
             0 0 0 0 0 0
             0 0 0 0 0 0
             0 0 0 0 0 0
             0 0 0 0 0 0
             2 0 1 0 1 0",
            "9 5 F C 3 C
             E 2 2 A 2 A
             6 3 2 D 6 F
             E B 4 E 0 B
             6 2 5 9 2 D
             8 D 0 3 2 9",
            "A1AA703C545E0C2DC1AEEC32AF3CB3E3",
        ),
        example(
            "B.1.4",
            3,
            "0 0 0 0 0 0 0
             0 0 0 0 0 0 0
             0 0 0 0 0 0 0
             0 0 0 0 0 0 0
             0 0 0 0 0 0 0
             0 0 0 0 0 0 0
             0 2 8 2 4 2 4  0",
            "1 F 0 D 4 A 1
             D D 0 A 3 1 D
             E C F 5 B 6 9
             B 6 6 E 0 C 8
             F 6 4 4 C E E
             E 9 0 2 0 F 4
             3 A 9 D E 7 4  0",
            "25FC7AA8F7B34F519F18D296B94B9BD951950308",
        ),
        example(
            "B.1.5",
            4,
            "0 0 0 0 0 0 0 0
             0 0 0 0 0 0 0 0
             0 0 0 0 0 0 0 0
             0 0 0 0 0 0 0 0
             0 0 0 0 0 0 0 0
             0 0 0 0 0 0 0 0
             0 0 0 0 0 0 0 0
             0 0 3 8 2 0 2 0",
            "1 7 3 0 4 2 4 2
             9 C F 2 6 E 1 0
             8 D 3 D 9 C F 9
             0 0 E 2 7 B D C
             C 6 2 9 B 3 D 1
             A F 4 1 F 1 C B
             7 4 8 3 F C C 0
             8 9 1 6 B 8 2 C",
            "0D041A1DEABAA2FDC5A693566FF36DC859FE15F7FFFBB4D6B50E1F94",
        ),
        example(
            "B.1.6",
            5,
            "00 00 00 00 00 00
             00 00 00 00 00 00
             00 00 00 00 00 00
             00 00 00 00 00 00
             00 00 00 00 00 00
             00 00 00 40 20 20",
            "4D BD 90 36 1C B5
             E0 9E 5C 38 A9 C9
             E9 D5 66 08 CF 52
             CB 6B C8 8B 93 16
             E8 C2 C0 69 25 F7
             18 CC 62 9C AE 79",
            "18A87BBD92CE34F9E8E23F4E1AE3FCDF8EB8D88DF4A136357F7285505A85A513",
        ),
    ]
}

/// B.2.2 to B.2.6. The state before is zero but for the message bytes m in
/// bytes 0 and up; the state after is printed from bit t - 1, that is from
/// the last byte.
fn spongent_examples() -> [Example; 5] {
    let message = "53706F6E6765202B2050726573656E74203D2053706F6E67656E74";
    let example = |clause, variant, m: &str, after: &str, digest| {
        let mut after = bytes(after);
        after.reverse();
        let mut before = bytes(m);
        before.resize(after.len(), 0);
        Example {
            clause,
            variant,
            before,
            after,
            message,
            digest,
        }
    };
    [
        example(
            "B.2.2",
            6,
            "53",
            "F69A7BE47D03C39920CD9E",
            "69971BF96DEF95BFC46822",
        ),
        example(
            "B.2.3",
            7,
            "53",
            "A71708DE877EFBD99B0403CAB395C4DB4D",
            "6B7BA35EB09DE0F8DEF06AE555694C53",
        ),
        example(
            "B.2.4",
            8,
            "5370",
            "C612AF721434233913487252969F37B88BCC3DF17C3D",
            "13188A4917EA29E258362C047B9BF00C22B5FE91",
        ),
        example(
            "B.2.5",
            9,
            "5370",
            // Printed with an S, which is no hexadecimal digit but a D.
            &"56243088814E5C08526AF8A61AB1869059CDFS2F9BF890F749D121873CE4".replace('S', "D"),
            "8443B12D2EEE4E09969A183205F5F7F684A711A5BE079A15F4CCDC30",
        ),
        example(
            "B.2.6",
            10,
            "5370",
            "79385240D0F57D1C72B221364F02CD330CBFCDE32A96BF5863BAB4EAE6B8AFE5F6C2",
            "67DC8FC8B2EDBA6E55F4E68EC4F2B2196FE38DF9B1A760F4D43B4669160BF5A8",
        ),
    ]
}

fn examples() -> impl Iterator<Item = Example> {
    photon_examples().into_iter().chain(spongent_examples())
}

#[test]
fn photon_starts_from_the_printed_value() {
    for example in photon_examples() {
        let variant = variant(example.variant).expect("a number from 1 to 11");
        let start = image::of_state(variant, &sponge::start_state(variant));
        assert_eq!(start, example.before, "{}", example.clause);
    }
}

#[test]
fn spongent_starts_from_zero() {
    for example in spongent_examples() {
        let variant = variant(example.variant).expect("a number from 1 to 11");
        let start = image::of_state(variant, &sponge::start_state(variant));
        assert_eq!(start, vec![0; example.after.len()], "{}", example.clause);
    }
}

#[test]
fn one_permutation_gives_the_printed_state() {
    for example in examples() {
        let mut image = example.before.clone();
        assert_eq!(permute(example.variant, &mut image), 0);
        assert_eq!(image, example.after, "{}", example.clause);
    }
}

#[test]
fn the_inverse_leads_back_from_the_printed_state() {
    for example in examples() {
        let mut image = example.after.clone();
        assert_eq!(unpermute(example.variant, &mut image), 0);
        assert_eq!(image, example.before, "{}", example.clause);
    }
}

#[test]
fn digests_are_the_printed_ones() {
    for example in examples() {
        assert_eq!(
            digest(example.variant, &bytes(example.message)),
            Ok(bytes(example.digest)),
            "{}",
            example.clause
        );
    }
}

#[test]
fn messages_are_the_printed_strings() {
    for (example, string) in [
        (
            &photon_examples()[0],
            "The PHOTON Lightweight Hash Functions Family",
        ),
        (&spongent_examples()[0], "Sponge + Present = Spongent"),
    ] {
        assert_eq!(bytes(example.message), string.as_bytes());
    }
}

/// B.3.2.
#[test]
fn function_q_gives_the_printed_word() {
    assert_eq!(q(0xa432_3129), 0x95f8_0b6e);
}

/// B.3.3.
#[test]
fn function_g_gives_the_printed_words() {
    assert_eq!(g(0x0000_0256_0000_0256, 0x0000_0256), 0xa58d_6363_6363_26c8);
}

/// That of B.3.2 with the first round constant added to it.
#[test]
fn the_printed_words_are_those_of_the_start() {
    let word: u32 = 0x0000_0256;
    assert_eq!(round_constants()[0] ^ word, 0xa432_3129);
    let lesamnta_lw = variant(11).expect("a number from 1 to 11");
    let start = image::of_state(lesamnta_lw, &chain::start_state(lesamnta_lw));
    assert_eq!(start, word.to_be_bytes().repeat(8));
}

/// B.3.4. The end state is the digest.
#[test]
fn lesamnta_lw_gives_the_printed_hash() {
    let printed = "ab32ca45 1748255e 3bf0e34a 5ad600f0 ce7660ec ea2fe083 ba54139b 770766d0";
    assert_eq!(bytes("616263"), b"abc");
    assert_eq!(digest(11, b"abc"), Ok(bytes(printed)));
    assert_eq!(end_state(11, b"abc"), Ok(bytes(printed)));
}
