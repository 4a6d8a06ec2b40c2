//! Nonces as numbers.

use crate::shared::expected::NONCE;

/// As a big-endian number.
pub fn number(bytes: &[u8]) -> u128 {
    bytes.iter().fold(0, |n, &byte| n << 8 | byte as u128)
}

/// The nonce that is this number.
pub fn nonce(number: u128) -> Vec<u8> {
    number.to_be_bytes()[16 - NONCE..].to_vec()
}

pub const MOST_NONCE: u128 = (1 << 96) - 1;
pub const MOST_LOW: u128 = (1 << 80) - 1;

/// The nonce that begins with the console number, with this number in the ten bytes after it.
pub fn nonce_on(console: u16, low: u128) -> Vec<u8> {
    assert!(low <= MOST_LOW, "more than ten bytes");
    nonce((console as u128) << 80 | low)
}

/// The number in the first two bytes, where there are two.
pub fn start(nonce: &[u8]) -> Option<u16> {
    nonce.first_chunk().map(|&two| u16::from_be_bytes(two))
}
