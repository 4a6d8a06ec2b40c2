//! Random makings and hand-made ledgers.

use super::headings::{Heading, NAMES, NOTHING};
use super::model::{capacity, make, Ledger};
use super::numbers::{nonce, start};
use super::records::Record;
use crate::shared::expected::{set, NONCE};
use crate::shared::inputs::BAD_SETS;
use crate::shared::random::Random;

impl Random {
    pub fn one_in(&mut self, n: usize) -> bool {
        self.below(n) == 0
    }

    pub fn any_set(&mut self) -> u32 {
        1 + self.below(10) as u32
    }

    fn bad_set(&mut self) -> u32 {
        BAD_SETS[self.below(BAD_SETS.len())]
    }

    /// A console number, often one at which a byte is 0 or full.
    pub fn console(&mut self) -> u16 {
        match self.below(4) {
            0 => self.number() as u16,
            _ => self.pick(&[0, 1, 255, 256, 65535]) as u16,
        }
    }

    /// A number other than this one, often this one to who reads it wrongly.
    pub fn other_console(&mut self, console: u16) -> u16 {
        let other = match self.below(6) {
            0 => console.wrapping_add(1),
            1 => console.wrapping_sub(1),
            2 => console.swap_bytes(),
            3 => console ^ 1 << self.below(16),
            4 => self.number() as u16,
            _ => self.console(),
        };
        if other == console {
            !console
        } else {
            other
        }
    }

    /// A making, refused one time in four.
    pub fn making(&mut self) -> Record {
        let mut number = self.any_set();
        let mut length = set(number).expect("a set").key;
        if self.one_in(4) {
            let which = self.below(3);
            if which != 0 {
                number = self.bad_set();
            }
            if which != 1 {
                length = self.pick(&[0, 1, 8, 15, 16, 17, 23, 24, 25, 31, 32, 33, 40, 56]);
            }
        }
        Record::Make(number, self.console(), self.bytes(length))
    }

    /// A made ledger, but with the older charge.
    pub fn fresh_older(&mut self) -> Ledger {
        let number = self.any_set();
        let key = self.bytes(set(number).expect("a set").key);
        make(number, self.console(), &key).1.older()
    }

    /// A total: small, at the capacity, at 2^64, or one of these to who looks at some of its bits.
    fn total(&mut self, set: u32) -> u64 {
        let most = capacity(set).unwrap_or(1 << 16) as u64;
        let few = self.below(13) as u64;
        match self.below(16) {
            0 => 0,
            1 => few,
            2..=5 => most - few,
            6 => most - 4346 - few, // the longest charge is 4,352
            7 => most + few,
            8 => u64::MAX - few,
            9 => self.number() >> self.below(64),
            10 => (1 << self.pick(&[16, 32, 48, 63])) - few,
            11 => most - 250 - few, // the longest charge of a keeping is 256
            12..=14 => most - 1,    // an empty call fills a newer ledger
            _ => (1 << self.pick(&[31, 32, 47, 48, 63])) + few,
        }
    }

    /// Anything, but the last nonce mostly begins with the console number, and half the ledgers have nothing kept.
    pub fn hand_made(&mut self, console: u16) -> Ledger {
        let set = if self.one_in(6) {
            self.bad_set()
        } else {
            self.any_set()
        };
        let mut last = match self.below(8) {
            0 => vec![0; NONCE],
            1 => vec![0xff; NONCE],
            2 => nonce(self.number() as u128 & 0xffff),
            _ => self.bytes(NONCE),
        };
        let begins = match self.below(16) {
            0 => self.other_console(console),
            1 => start(&last).expect("two bytes"),
            _ => console,
        };
        last[..2].copy_from_slice(&begins.to_be_bytes());
        Ledger {
            set,
            key: self.bytes(32).try_into().expect("32 bytes"),
            console,
            total: self.total(set),
            heartbeats: self.one_in(3),
            begun: !self.one_in(3),
            last: last.try_into().expect("12 bytes"),
            headings: self.headings(),
        }
    }

    fn headings(&mut self) -> [Heading; NAMES] {
        let mut all = [NOTHING; NAMES];
        for _ in 0..self.pick(&[0, 0, 0, 0, 1, 2, 3, 6]) {
            let (name, heading) = self.held();
            all[name as usize] = heading;
        }
        all
    }

    /// A name, a flag and a sum: at times a flag with no sum, and a sum with no flag.
    pub fn held(&mut self) -> (u8, Heading) {
        let sum = match self.below(8) {
            0 => vec![0; 16],
            1 => vec![0xff; 16],
            _ => self.bytes(16),
        };
        let name = self.below(NAMES) as u8;
        let kept = !self.one_in(3);
        (name, Heading::Hand(kept, sum.try_into().expect("16 bytes")))
    }
}
