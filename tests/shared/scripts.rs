//! What the models of the programs that run scripts share: strings from seeds, and what records and lines have.

use super::mode::bytes::to_hex;
use std::collections::BTreeMap;

pub const MOST_HEADER: usize = 8_192; // what the programs' buffers hold, of data
pub const MOST_OUT: usize = 66_000; // and of text and of output
pub const OUT_SEED: u8 = 165; // of what the output holds before a call

const LONG: usize = 64; // a longer output is shown by its residue
const MODULUS: u128 = (1 << 56) - 5;

/// The lengths of key and tag of each set, from set 1 on.
pub const KEYS_AND_TAGS: [(usize, usize); 10] = [
    (16, 4),
    (16, 4),
    (16, 8),
    (16, 8),
    (16, 8),
    (16, 12),
    (16, 12),
    (16, 12),
    (24, 8),
    (32, 12),
];

/// A key of 32 bytes that are all different, and none 0.
pub fn key() -> [u8; 32] {
    std::array::from_fn(|i| 0x11 + i as u8)
}

/// The string of a length that a seed stands for.
pub fn filled(length: usize, seed: u8) -> Vec<u8> {
    (0..length)
        .map(|i| (seed as usize + i % 251) as u8)
        .collect()
}

/// A length in three bytes.
pub fn length(n: usize, most: usize) -> [u8; 3] {
    assert!(n <= most, "too long");
    let [_, three @ ..] = (n as u32).to_be_bytes();
    three
}

/// What a line has for an answer, which is - where the record makes a value by hand.
pub fn answer(line: &str) -> &str {
    line.split(' ').nth(1).unwrap_or("-")
}

/// As lines show an output.
pub fn shown(out: &[u8]) -> String {
    if out.len() <= LONG {
        return to_hex(out);
    }
    let residue = out
        .iter()
        .fold(0, |n, &byte| (n << 8 | byte as u128) % MODULUS);
    format!("{} {residue:014x}", out.len())
}

/// How often each answer was given.
pub type Answers = BTreeMap<u32, usize>;

pub fn by_answer(counts: &Answers) -> String {
    let answers = counts.iter().map(|(a, n)| format!("answer {a}: {n}"));
    answers.collect::<Vec<_>>().join(", ")
}
