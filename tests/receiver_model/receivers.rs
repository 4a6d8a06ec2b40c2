//! Random makings and hand-made receivers.

use super::records::Record;
use super::values::Values;
use crate::shared::expected::set;
use crate::shared::inputs::BAD_SETS;
use crate::shared::random::Random;

impl Random {
    pub fn one_in(&mut self, n: usize) -> bool {
        self.below(n) == 0
    }

    pub fn one_of<T: Copy>(&mut self, of: &[T]) -> T {
        of[self.below(of.len())]
    }

    fn any_set(&mut self) -> u32 {
        1 + self.below(10) as u32
    }

    /// Often one at which a byte is 0 or full.
    fn prefix(&mut self) -> u32 {
        match self.below(4) {
            0 => self.number() as u32,
            _ => self.one_of(&[0, 1, 255, 256, 0x0102_0304, 1 << 24, u32::MAX]),
        }
    }

    /// A number other than this one, often this one to who reads it wrongly.
    pub fn other_prefix(&mut self, prefix: u32) -> u32 {
        let other = match self.below(6) {
            0 => prefix.wrapping_add(1),
            1 => prefix.wrapping_sub(1),
            2 => prefix.swap_bytes(),
            3 => prefix ^ 1 << self.below(32),
            4 => prefix.rotate_left(16),
            _ => self.prefix(),
        };
        if other == prefix {
            !prefix
        } else {
            other
        }
    }

    /// A making, refused one time in eight.
    pub fn making(&mut self) -> Record {
        let mut number = self.any_set();
        let mut length = set(number).expect("a set").key;
        if self.one_in(8) {
            let which = self.below(3);
            if which != 0 {
                number = self.one_of(&BAD_SETS);
            }
            if which != 1 {
                length = self.one_of(&[0, 1, 8, 15, 16, 17, 23, 24, 25, 31, 32, 33, 40, 54]);
            }
        }
        Record::Make(number, self.prefix(), self.bytes(length))
    }

    /// A counter, often one at an end of the window or of all counters.
    pub fn any_counter(&mut self) -> u64 {
        let few = self.below(70) as u64;
        match self.below(8) {
            0 => self.one_of(&[0, 1, 62, 63, 64, 65, 127, 128]),
            1 => few,
            2 => (1 << 32) - 1 - few,
            3 => (1 << 63) - 35 + few,
            4 => u64::MAX - few,
            5 => self.one_of(&[u64::MAX, u64::MAX - 1]),
            _ => self.number() >> self.below(64),
        }
    }

    /// None, all, few, or half of them.
    fn marks(&mut self) -> u64 {
        match self.below(8) {
            0 => 0,
            1 => u64::MAX,
            2 => 1,
            3 => 1 << self.below(64),
            4 => !(1 << self.below(64)),
            5 => self.number() & self.number() & self.number(),
            _ => self.number(),
        }
    }

    /// Anything. Two in three have begun.
    pub fn hand_made(&mut self) -> Values {
        let set = if self.one_in(8) {
            self.one_of(&BAD_SETS)
        } else {
            self.any_set()
        };
        Values {
            set,
            key: self.bytes(32).try_into().expect("32 bytes"),
            prefix: self.prefix(),
            begun: !self.one_in(3),
            highest: self.any_counter(),
            marks: self.marks(),
        }
    }
}
