//! Nonces as numbers: the first four bytes, and the counter in the last eight.

pub fn nonce(prefix: u32, counter: u64) -> Vec<u8> {
    [&prefix.to_be_bytes()[..], &counter.to_be_bytes()].concat()
}

/// The number in the first four bytes, where there are four.
pub fn prefix(nonce: &[u8]) -> Option<u32> {
    nonce.first_chunk().map(|&four| u32::from_be_bytes(four))
}

/// The number in the last eight bytes, where there are eight.
pub fn counter(nonce: &[u8]) -> Option<u64> {
    nonce.last_chunk().map(|&eight| u64::from_be_bytes(eight))
}
