//! Refusals that an opening is made for.

use super::openings::{Opening, Text};
use crate::shared::expected::{set, MOST_TEXT};
use crate::shared::random::Random;

/// The receiver decides on 1.
const FAULTS: [u32; 8] = [3, 4, 5, 6, 7, 8, 12, 15];

pub struct Wishes(Vec<u32>);

impl Wishes {
    pub fn has(&self, fault: u32) -> bool {
        self.0.contains(&fault)
    }
}

impl Random {
    /// None mostly, and 5 seldom, for it takes long.
    pub fn wishes(&mut self) -> Wishes {
        let count = self.one_of(&[0, 0, 0, 0, 0, 0, 0, 1, 1, 2, 3]);
        let mut all: Vec<u32> = (0..count).map(|_| self.one_of(&FAULTS)).collect();
        if !self.one_in(4) {
            all.retain(|&fault| fault != 5);
        }
        Wishes(all)
    }

    /// The piece with these faults but for 12 and 15, which lie in its nonce. The output is just long enough, longer,
    /// or, where that is wished for, too short.
    pub fn with_faults(&mut self, mut call: Opening, number: u32, wished: &Wishes) -> Opening {
        let t = set(number).map_or(12, |s| s.t);
        if wished.has(8) {
            self.damage(&mut call);
        }
        if wished.has(5) {
            let over = self.one_of(&[1, 2, 16, 400]);
            call.text = Text::Noise(MOST_TEXT + t + over, self.number() as u8);
        }
        if wished.has(6) {
            let length = self.below(t);
            call.change(|text| text.truncate(length));
        }
        if wished.has(4) {
            call.data = self.one_of(&[4097, 4098, 4112, 8192]);
        }
        if wished.has(3) {
            let length = self.one_of(&[0, 1, 4, 8, 11, 13, 16, 24, 51]);
            call.nonce.resize(length, 0);
        }
        let need = call.text.len().saturating_sub(t);
        call.out = match wished.has(7) && need > 0 {
            true => self.one_of(&[0, need - 1, need / 2]),
            false => need + self.one_of(&[0, 0, 1, 2, 50]),
        };
        call
    }

    /// Some change of the ciphertext or of the data.
    fn damage(&mut self, call: &mut Opening) {
        let (at, bit) = (self.below(call.text.len()), 1 << self.below(8));
        match self.below(16) {
            0 => call.seed = call.seed.wrapping_add(1), // nothing, where there are no data
            1 => call.data += 1,
            2 => call.change(|text| text.push(bit)),
            3 => call.change(|text| text.truncate(text.len() - 1)),
            4 => call.text = Text::Noise(call.text.len(), bit),
            // Seldom the longest that there can be, which takes long.
            5 if self.one_in(64) => call.text = Text::Noise(MOST_TEXT + 4, bit),
            _ => call.change(|text| text[at] ^= bit),
        }
    }
}
