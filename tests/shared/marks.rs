//! What making and checking a mark are held to: the table of answers, and CMAC written a second time.

use super::cmac::CMAC;
use super::mode::aes::Aes;
use super::mode::bytes::{to_bits, to_bytes};
use std::ops::RangeInclusive;

pub const KEYS: [usize; 3] = [16, 24, 32];
pub const MOST_LOG: usize = 65536;
pub const MARKS: RangeInclusive<usize> = 4..=16;
pub const CODE: usize = 16;

/// The code of a log: a mark is its start.
pub fn code(key: &[u8], log: &[u8]) -> Vec<u8> {
    to_bytes(&CMAC(&Aes::new(key), to_bits(log)))
}

/// A function of the library.
#[derive(Clone, Copy, PartialEq, Eq, PartialOrd, Ord)]
pub enum Act {
    Make,
    Check,
}

pub const ACTS: [Act; 2] = [Act::Make, Act::Check];

impl Act {
    pub fn name(self) -> &'static str {
        match self {
            Act::Make => "cmac_make",
            Act::Check => "cmac_check",
        }
    }

    /// The refusals, in the order of the checks.
    pub fn refusals(self) -> [u32; 4] {
        match self {
            Act::Make => [2, 5, 14, 7],
            Act::Check => [2, 5, 14, 8],
        }
    }

    /// Each refusal that applies, in that order, the first of which is the answer. For the lengths of key, log, mark
    /// and output; `is_false` where the mark is not the start of the code.
    pub fn faults(self, [key, log, mark]: [usize; 3], out: usize, is_false: bool) -> Vec<u32> {
        let applies = |refusal: &u32| match refusal {
            2 => !KEYS.contains(&key),
            5 => log > MOST_LOG,
            14 => !MARKS.contains(&mark),
            7 => out < mark,
            _ => is_false,
        };
        self.refusals().into_iter().filter(applies).collect()
    }
}
