//! Inputs of the calls: lengths, right and wrong, and bytes.

use super::expected::{Set, MOST_DATA, NONCE};
use super::random::Random;

pub const HUGE: usize = 1 << 32; // a length that is 0 to one who looks at 32 bits
pub const LONGEST: usize = isize::MAX as usize; // of anything in memory

/// Lengths of data: those at which a block or the limit is near.
pub const DATA: [usize; 13] = [
    0, 1, 15, 16, 17, 31, 32, 33, 255, 256, 4080, 4095, MOST_DATA,
];

/// Some are a set's number to one who looks at 8, 16 or 31 bits.
pub const BAD_SETS: [u32; 13] = [
    0,
    11,
    12,
    255,
    256,
    257,
    266,
    65536,
    65537,
    65546,
    1 << 31,
    1 << 31 | 1,
    u32::MAX,
];

impl Random {
    pub fn pick(&mut self, of: &[usize]) -> usize {
        of[self.below(of.len())]
    }

    /// A length other than the right one: one of these, or one that is right to who looks at 8, 16 or 32 bits.
    fn other(&mut self, right: usize, of: &[usize]) -> usize {
        let low_bits = [right + 256, right + 65536, right + HUGE];
        let all = of.iter().copied().chain(low_bits);
        let others: Vec<usize> = all.filter(|&n| n != right).collect();
        self.pick(&others)
    }

    pub fn bytes(&mut self, count: usize) -> Vec<u8> {
        let mut bytes = Vec::with_capacity(count + 8);
        while bytes.len() < count {
            bytes.extend(self.number().to_le_bytes());
        }
        bytes.truncate(count);
        bytes
    }

    /// An input: now and then one byte over and over.
    pub fn input(&mut self, count: usize) -> Vec<u8> {
        match self.below(16) {
            0 => vec![[0x00, 0x80, 0xff][self.below(3)]; count],
            _ => self.bytes(count),
        }
    }

    /// A set's number and lengths of key, nonce and data, each wrong or right.
    pub fn lengths(&mut self, s: Set, wrong: [bool; 4]) -> (u32, [usize; 3]) {
        let number = match wrong[0] {
            true => BAD_SETS[self.below(BAD_SETS.len())],
            false => s.number,
        };
        let key = match wrong[1] {
            true => self.other(s.key, &[0, 8, 15, 16, 17, 23, 24, 25, 31, 32, 33, 40, 64]),
            false => s.key,
        };
        let nonce = match wrong[2] {
            true => self.other(NONCE, &[0, 1, 8, 11, 13, 16, 20]),
            false => NONCE,
        };
        let data = match wrong[3] {
            true => self.pick(&[4097, 4098, 4112, 8192, 65536, HUGE, HUGE + 16, LONGEST]),
            false => self.pick(&DATA),
        };
        (number, [key, nonce, data])
    }
}
