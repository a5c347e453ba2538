//! The eleven hash functions and their sizes (clauses 5.2.1, 5.3.1 and 6.2,
//! Table 1 and Table 9; SPONGENT's rates are those of Table C.1).

/// The three families; they differ in block step, start state, padding and bit
/// order.
#[derive(Clone, Copy, Debug, PartialEq, Eq)]
pub enum Family {
    /// Clause 5.2, sponges.
    Photon,
    /// Clause 5.3, sponges.
    Spongent,
    /// Clause 6.2, a chain over a block cipher.
    LesamntaLw,
}

/// One hash function. All sizes are in bits.
#[derive(Clone, Copy, Debug, PartialEq, Eq)]
pub struct Variant {
    /// The number that calls use, 1 to 11.
    pub number: u32,
    /// The family's name and, for a sponge, the size of the state.
    pub name: &'static str,
    /// The family.
    pub family: Family,
    /// t, the state.
    pub state_bits: usize,
    /// r, a block of the message.
    pub block_bits: usize,
    /// r', a block of the digest; Lesamnta-LW gives all of it out at once.
    pub output_bits: usize,
    /// n, the digest.
    pub digest_bits: usize,
}

impl Variant {
    /// Whether a permutation takes its blocks in. All but Lesamnta-LW have one.
    pub fn is_sponge(&self) -> bool {
        self.family != Family::LesamntaLw
    }

    /// The bytes that hold a state.
    pub fn image_bytes(&self) -> usize {
        self.state_bits.div_ceil(8)
    }

    /// The bytes that hold a digest.
    pub fn digest_bytes(&self) -> usize {
        self.digest_bits.div_ceil(8)
    }
}

/// All variants, in the order of their numbers.
pub static VARIANTS: [Variant; 11] = [
    photon(1, "photon-100", 100, [20, 16], 80),
    photon(2, "photon-144", 144, [16, 16], 128),
    photon(3, "photon-196", 196, [36, 36], 160),
    photon(4, "photon-256", 256, [32, 32], 224),
    photon(5, "photon-288", 288, [32, 32], 256),
    spongent(6, "spongent-88", 88, 8, 88),
    spongent(7, "spongent-136", 136, 8, 128),
    spongent(8, "spongent-176", 176, 16, 160),
    spongent(9, "spongent-240", 240, 16, 224),
    spongent(10, "spongent-272", 272, 16, 256),
    Variant {
        number: 11,
        name: "lesamnta-lw",
        family: Family::LesamntaLw,
        state_bits: 256,
        block_bits: 128,
        output_bits: 256,
        digest_bits: 256,
    },
];

/// The variants that are sponges, in the same order.
pub fn sponges() -> impl Iterator<Item = &'static Variant> {
    VARIANTS.iter().filter(|variant| variant.is_sponge())
}

/// The variant with this number.
pub fn variant(number: u32) -> Option<&'static Variant> {
    VARIANTS.iter().find(|variant| variant.number == number)
}

/// A PHOTON variant, with its two rates r and r'.
const fn photon(
    number: u32,
    name: &'static str,
    state_bits: usize,
    [block_bits, output_bits]: [usize; 2],
    digest_bits: usize,
) -> Variant {
    Variant {
        number,
        name,
        family: Family::Photon,
        state_bits,
        block_bits,
        output_bits,
        digest_bits,
    }
}

/// A SPONGENT variant, which takes in and gives out blocks of one size.
const fn spongent(
    number: u32,
    name: &'static str,
    state_bits: usize,
    rate: usize,
    digest_bits: usize,
) -> Variant {
    Variant {
        number,
        name,
        family: Family::Spongent,
        state_bits,
        block_bits: rate,
        output_bits: rate,
        digest_bits,
    }
}
