//! Bit strings as lists of booleans, and how bytes hold them.

/// Which bit of a byte comes first in a bit string.
#[derive(Clone, Copy, Debug, PartialEq, Eq)]
pub enum Order {
    /// The most significant bit.
    HighestFirst,
    /// The least significant bit.
    LowestFirst,
}

/// Bit `index` of the bit string that the bytes hold.
pub fn bit_at(order: Order, bytes: &[u8], index: usize) -> bool {
    bytes[index / 8] & weight(order, index % 8) != 0
}

/// The bit string that the bytes hold.
pub fn unpack(order: Order, bytes: &[u8]) -> Vec<bool> {
    (0..8 * bytes.len())
        .map(|index| bit_at(order, bytes, index))
        .collect()
}

/// The bytes that hold a bit string; the last one is filled with zeros.
pub fn pack(order: Order, bits: &[bool]) -> Vec<u8> {
    bits.chunks(8)
        .map(|byte| {
            (0..byte.len())
                .filter(|&place| byte[place])
                .map(|place| weight(order, place))
                .sum()
        })
        .collect()
}

/// The value in its byte of the bit at this place of the byte.
fn weight(order: Order, place: usize) -> u8 {
    match order {
        Order::HighestFirst => 0x80 >> place,
        Order::LowestFirst => 0x01 << place,
    }
}

#[cfg(test)]
mod tests {
    use super::*;

    #[test]
    fn bytes_are_read_from_either_end() {
        let bit = |c| c == '1';
        let highest: Vec<bool> = "1010101100000001".chars().map(bit).collect();
        let lowest: Vec<bool> = "1101010110000000".chars().map(bit).collect();
        assert_eq!(unpack(Order::HighestFirst, &[0xab, 0x01]), highest);
        assert_eq!(unpack(Order::LowestFirst, &[0xab, 0x01]), lowest);
    }

    #[test]
    fn packing_takes_unpacking_back() {
        let bytes: Vec<u8> = (0..=255).collect();
        for order in [Order::HighestFirst, Order::LowestFirst] {
            assert_eq!(pack(order, &unpack(order, &bytes)), bytes);
        }
    }

    #[test]
    fn a_last_byte_is_filled_with_zeros() {
        let nine = [true; 9];
        assert_eq!(pack(Order::HighestFirst, &nine), [0xff, 0x80]);
        assert_eq!(pack(Order::LowestFirst, &nine), [0xff, 0x01]);
    }
}
