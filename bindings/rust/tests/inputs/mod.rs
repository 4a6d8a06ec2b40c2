//! Strings for tests, and the lengths at which something may go wrong.

/// All short lengths, on which a form depends, and some at which a count of blocks or the longest text ends.
pub fn lengths(most: usize) -> impl Iterator<Item = usize> {
    let long = [255, 256, 257, 4095, 4096, 4097, most - 1, most];
    (0..=70).chain(long)
}

pub fn bytes(len: usize, first: u8) -> Vec<u8> {
    (0..len)
        .map(|i| first.wrapping_add((i * 37 + i / 256) as u8))
        .collect()
}
