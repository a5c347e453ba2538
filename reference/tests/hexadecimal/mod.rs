//! Hexadecimal as the standard prints it, for the tests.

/// The bytes of hexadecimal digits; white space between them is passed over.
pub fn bytes(digits: &str) -> Vec<u8> {
    let nibbles: Vec<u8> = digits
        .chars()
        .filter(|c| !c.is_whitespace())
        .map(|c| c.to_digit(16).expect("a hexadecimal digit") as u8)
        .collect();
    assert_eq!(nibbles.len() % 2, 0, "digits must come in pairs: {digits}");
    nibbles
        .chunks(2)
        .map(|pair| pair[0] << 4 | pair[1])
        .collect()
}
