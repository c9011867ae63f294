//! Bytes in text.

/// Bytes that are written in hex, two digits each and nothing between them.
pub fn bytes(hex: &str) -> Vec<u8> {
    (0..hex.len()).step_by(2).map(|i| u8::from_str_radix(&hex[i..i + 2], 16).expect("two hex digits")).collect()
}
