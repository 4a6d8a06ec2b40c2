//! Numbers as strings of bits; random values.

use crate::mode::cba::Bits;
use crate::random::Random;

/// The number x in the given count of bits.
pub fn number_bits(x: u64, count: usize) -> Bits {
    Bits((0..count).rev().map(|j| x >> j & 1 == 1).collect())
}

pub fn bits_number(bits: &Bits) -> u64 {
    bits.0.iter().fold(0, |x, &bit| x << 1 | bit as u64)
}

impl Random {
    pub fn bytes(&mut self, count: usize) -> Vec<u8> {
        (0..count).map(|_| self.number() as u8).collect()
    }

    pub fn bits(&mut self, count: usize) -> Bits {
        let mut bits = vec![];
        while bits.len() < count {
            let x = self.number();
            bits.extend((0..64.min(count - bits.len())).map(|j| x >> j & 1 == 1));
        }
        Bits(bits)
    }
}
