//! 002's Figure 6, repaired as document 01 says: the dictionary of 274 bytes that the paper's worked cases use.

const HEX: &str = include_str!("../../crates/judges/stdin");

pub fn bytes() -> Vec<u8> {
    HEX.split_whitespace()
        .map(|pair| u8::from_str_radix(pair, 16).expect("two hex digits"))
        .collect()
}
