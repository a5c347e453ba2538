//! Images: states packed in bytes. A state is the list of its bits, SPONGENT's
//! from bit 0, the others' from the leftmost bit.

use crate::bits::{pack, unpack, Order};
use crate::variants::{Family, Variant};

/// The order in which a family's images hold the state's bits.
pub fn order(family: Family) -> Order {
    match family {
        Family::Photon | Family::LesamntaLw => Order::HighestFirst,
        Family::Spongent => Order::LowestFirst,
    }
}

/// The state that the bytes are an image of; none if their number is wrong
/// or a bit past the state is set.
pub fn to_state(variant: &Variant, image: &[u8]) -> Option<Vec<bool>> {
    if image.len() != variant.image_bytes() {
        return None;
    }
    let mut bits = unpack(order(variant.family), image);
    let spare = bits.split_off(variant.state_bits);
    (!spare.contains(&true)).then_some(bits)
}

/// The image of a state.
pub fn of_state(variant: &Variant, state: &[bool]) -> Vec<u8> {
    pack(order(variant.family), state)
}
