//! Messages, and pieces of them, as bit strings. They come as bytes, and with
//! or without a bit number, which says how many bits of the last byte count.

use crate::bits::{unpack, Order};
use crate::variants::Family;

/// Bytes, and the bit number if one is given.
#[derive(Clone, Copy, Debug)]
pub struct Message<'a> {
    bytes: &'a [u8],
    bit_number: Option<u32>,
}

impl<'a> Message<'a> {
    /// All bits of these bytes.
    pub fn whole(bytes: &'a [u8]) -> Message<'a> {
        Message {
            bytes,
            bit_number: None,
        }
    }

    /// All bits of these bytes but for the last, of which so many count.
    pub fn ending(bytes: &'a [u8], bit_number: u32) -> Message<'a> {
        Message {
            bytes,
            bit_number: Some(bit_number),
        }
    }

    /// Whether a given bit number is 1 to 8 and has a byte to speak of. All
    /// else that is said here is said of a message that is sound.
    pub fn is_sound(&self) -> bool {
        match self.bit_number {
            None => true,
            Some(number) => (1..=8).contains(&number) && !self.bytes.is_empty(),
        }
    }

    /// How many bits count, in a number with room for any slice's.
    pub fn length(&self) -> u128 {
        let left_out = 8 - self.bit_number.unwrap_or(8);
        8 * self.bytes.len() as u128 - u128::from(left_out)
    }

    /// The bits that count, the highest of each byte first. Of a last byte
    /// SPONGENT takes the low bits and the others the high ones.
    pub fn bits(&self, family: Family) -> Vec<bool> {
        let mut bits = unpack(Order::HighestFirst, self.bytes);
        if let Some(number) = self.bit_number {
            let last = bits.split_off(bits.len() - 8);
            let number = number as usize;
            bits.extend(match family {
                Family::Photon | Family::LesamntaLw => &last[..number],
                Family::Spongent => &last[8 - number..],
            });
        }
        bits
    }
}

#[cfg(test)]
mod tests {
    use super::*;

    const FAMILIES: [Family; 3] = [Family::Photon, Family::Spongent, Family::LesamntaLw];

    /// The bits that count, as digits.
    fn digits(message: Message, family: Family) -> String {
        let bits = message.bits(family);
        assert_eq!(bits.len() as u128, message.length());
        bits.iter()
            .map(|&bit| if bit { '1' } else { '0' })
            .collect()
    }

    #[test]
    fn the_high_bits_count_or_the_low_ones() {
        // 1011 0111.
        let high = ["1", "10", "101", "1011", "10110", "101101", "1011011"];
        let low = ["1", "11", "111", "0111", "10111", "110111", "0110111"];
        for number in 1..8 {
            let message = Message::ending(&[0xb7], number);
            let k = number as usize - 1;
            assert_eq!(digits(message, Family::Photon), high[k]);
            assert_eq!(digits(message, Family::LesamntaLw), high[k]);
            assert_eq!(digits(message, Family::Spongent), low[k]);
        }
    }

    #[test]
    fn bytes_before_the_last_count_whole() {
        let message = Message::ending(&[0xab, 0xcd], 3);
        assert_eq!(digits(message, Family::Photon), "10101011110");
        assert_eq!(digits(message, Family::LesamntaLw), "10101011110");
        assert_eq!(digits(message, Family::Spongent), "10101011101");
    }

    #[test]
    fn eight_bits_are_the_whole_byte() {
        for family in FAMILIES {
            for bytes in [&[0xb7][..], &[0xab, 0xcd]] {
                let [whole, ending] = [Message::whole(bytes), Message::ending(bytes, 8)];
                assert_eq!(digits(whole, family), digits(ending, family));
            }
        }
    }

    /// Every byte is as good as the one that has zeros where nothing counts.
    #[test]
    fn other_bits_change_nothing() {
        for number in 1..=8 {
            for byte in 0..=255u8 {
                let high = byte >> (8 - number) << (8 - number);
                let low = byte << (8 - number) >> (8 - number);
                for (family, alone) in FAMILIES.into_iter().zip([high, low, high]) {
                    let [all, alone] = [[0x31, byte], [0x31, alone]]
                        .map(|bytes| digits(Message::ending(&bytes, number), family));
                    assert_eq!(all, alone, "{number} bits of {byte:02x}");
                }
            }
        }
    }

    #[test]
    fn bit_numbers_are_1_to_8_and_have_a_byte() {
        assert!(Message::whole(&[]).is_sound());
        for number in 0..=300 {
            assert!(!Message::ending(&[], number).is_sound());
            let sound = (1..=8).contains(&number);
            assert_eq!(Message::ending(&[0xb7], number).is_sound(), sound);
        }
        for number in [256 + 3, 1 << 16 | 8, 1 << 31, u32::MAX] {
            assert!(!Message::ending(&[0xb7], number).is_sound());
        }
    }
}
