//! The fields of PHOTON's cells, with products through logarithms.

/// A field of 2^s elements. An element is a polynomial over the bits, its
/// coefficients the bits of a number.
#[derive(Debug)]
pub struct Field {
    /// The powers of the generator, from exponent 0.
    powers: Vec<u8>,
    /// The exponent of each element; the entry of 0 has no meaning.
    logarithms: Vec<usize>,
}

impl Field {
    /// The field of 4-bit cells, modulo x^4 + x + 1.
    pub fn of_nibbles() -> Field {
        Field::new(4, 0x13)
    }

    /// The field of 8-bit cells, modulo x^8 + x^4 + x^3 + x + 1.
    pub fn of_bytes() -> Field {
        Field::new(8, 0x11b)
    }

    /// The field modulo a polynomial of degree `bits` for which x + 1 is a
    /// generator. It is one in both fields of the standard; x is not one
    /// among the 8-bit cells.
    fn new(bits: u32, polynomial: usize) -> Field {
        let elements = 1 << bits;
        let mut powers = Vec::new();
        let mut logarithms = vec![0; elements];
        let mut power = 1;
        for exponent in 0..elements - 1 {
            powers.push(power as u8);
            logarithms[power] = exponent;
            power = reduced(power << 1, elements, polynomial) ^ power;
            // A return to 1 before the end would leave elements out.
            assert!((power == 1) == (exponent == elements - 2));
        }
        Field { powers, logarithms }
    }

    /// The number of elements.
    pub fn elements(&self) -> usize {
        self.logarithms.len()
    }

    /// The product of two elements.
    pub fn product(&self, a: u8, b: u8) -> u8 {
        if a == 0 || b == 0 {
            return 0;
        }
        let exponent = self.logarithms[usize::from(a)] + self.logarithms[usize::from(b)];
        self.powers[exponent % self.powers.len()]
    }

    /// The element whose product with this one is 1; none for 0.
    pub fn reciprocal(&self, a: u8) -> Option<u8> {
        let order = self.powers.len();
        (a != 0).then(|| self.powers[(order - self.logarithms[usize::from(a)]) % order])
    }
}

/// The remainder of a polynomial of at most the modulus's degree.
fn reduced(value: usize, elements: usize, polynomial: usize) -> usize {
    if value & elements != 0 {
        value ^ polynomial
    } else {
        value
    }
}

#[cfg(test)]
mod tests {
    use super::*;

    /// The product by long multiplication, then long division.
    fn by_hand(a: u8, b: u8, degree: usize, polynomial: u32) -> u8 {
        let mut value = (0..degree)
            .filter(|k| b >> k & 1 == 1)
            .fold(0, |sum, k| sum ^ u32::from(a) << k);
        for k in (degree..2 * degree).rev() {
            if value >> k & 1 == 1 {
                value ^= polynomial << (k - degree);
            }
        }
        value as u8
    }

    #[test]
    fn products_are_polynomial_products() {
        for (field, degree, polynomial) in [
            (Field::of_nibbles(), 4, 0b1_0011),
            (Field::of_bytes(), 8, 0b1_0001_1011),
        ] {
            for a in 0..field.elements() {
                for b in 0..field.elements() {
                    let (a, b) = (a as u8, b as u8);
                    assert_eq!(
                        field.product(a, b),
                        by_hand(a, b, degree, polynomial),
                        "{a} times {b}"
                    );
                }
            }
        }
    }

    #[test]
    fn known_products() {
        assert_eq!(Field::of_nibbles().product(2, 9), 1);
        assert_eq!(Field::of_bytes().product(0x02, 0x8d), 0x01);
    }

    #[test]
    fn an_element_times_its_reciprocal_is_one() {
        for field in [Field::of_nibbles(), Field::of_bytes()] {
            assert_eq!(field.reciprocal(0), None);
            for a in 1..field.elements() {
                let a = a as u8;
                let reciprocal = field.reciprocal(a).expect("a is not 0");
                assert_eq!(field.product(a, reciprocal), 1, "{a}");
            }
        }
    }
}
