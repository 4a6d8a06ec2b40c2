//! What a radio delivers: pieces that mostly rise, some lost, some again, some late, some damaged, and at times what is
//! no piece for this receiver.

use super::faults::Wishes;
use super::model::Receiver;
use super::numbers::nonce;
use super::openings::{Opening, Sender, Text};
use crate::shared::expected::set;
use crate::shared::random::Random;

/// How far from the highest the window or its double ends.
const BORDERS: [u64; 6] = [62, 63, 64, 65, 127, 128];

/// What was sent to one receiver.
#[derive(Default)]
pub struct Radio {
    sent: Vec<Opening>,
    counters: Vec<u64>, // in the order in which they were delivered
}

impl Radio {
    /// An opening on the receiver. Of the refusals that are wished for, 12 and 15 lie in the nonce.
    pub fn opening(
        &mut self,
        random: &mut Random,
        receiver: &Receiver,
        wished: &Wishes,
    ) -> Opening {
        let counter = match wished.has(15) {
            true => random.repeat(receiver),
            false => self.counter(random, receiver),
        };
        let prefix = match wished.has(12) {
            true => random.other_prefix(receiver.prefix),
            false => receiver.prefix,
        };
        let sender = Sender {
            set: receiver.set,
            key: receiver.key,
            prefix,
        };
        self.counters.push(counter);
        self.piece(random, &sender, counter)
    }

    /// At times one that was delivered shortly before; before the first acceptance any.
    fn counter(&self, random: &mut Random, receiver: &Receiver) -> u64 {
        let recent = &self.counters[self.counters.len().saturating_sub(8)..];
        match receiver.begun {
            _ if !recent.is_empty() && random.one_in(6) => random.one_of(recent),
            true => random.near(receiver.highest),
            false => random.any_counter(),
        }
    }

    /// What was sent under the nonce, mostly, or a new piece. Where there is no set none is true.
    fn piece(&mut self, random: &mut Random, sender: &Sender, counter: u64) -> Opening {
        let nonce = nonce(sender.prefix, counter);
        let before = self.sent.iter().find(|piece| piece.nonce == nonce);
        if let Some(piece) = before.filter(|_| !random.one_in(8)) {
            return piece.clone();
        }
        let (data, message, seed) = random.strings();
        let piece = match set(sender.set) {
            Some(_) => sender.piece(counter, data, seed, &random.bytes(message)),
            None => Opening {
                nonce,
                data,
                seed,
                text: Text::Given(random.bytes(message + 12)),
                out: message,
            },
        };
        self.sent.push(piece.clone());
        piece
    }
}

impl Random {
    /// The length of data and of a message, and the seed of the data.
    fn strings(&mut self) -> (usize, usize, u8) {
        let data = match self.below(64) {
            0 => self.one_of(&[255, 256, 4080, 4095, 4096]),
            1..=24 => 0,
            _ => self.below(34),
        };
        let message = match self.below(64) {
            0 => self.one_of(&[100, 333, 1000]),
            1..=16 => 0,
            17..=32 => self.one_of(&[1, 8, 15, 16, 17, 31, 32, 33]),
            _ => self.below(24),
        };
        (data, message, self.number() as u8)
    }

    /// The counter after the highest mostly.
    fn near(&mut self, highest: u64) -> u64 {
        let above = match self.below(64) {
            0..=31 => 1,
            32..=40 => 1 + self.below(6) as u64, // some are lost
            41..=44 => 1 + self.below(70) as u64,
            45 => self.one_of(&BORDERS),
            46 if self.one_in(2) => (1 << 32) - 1 + self.below(3) as u64,
            47 if self.one_in(2) => return u64::MAX - self.below(70) as u64,
            48 if self.one_in(4) => return self.any_counter(),
            49..=53 => return highest.saturating_sub(self.one_of(&BORDERS)),
            54 => return highest,
            _ => return highest.saturating_sub(self.below(131) as u64), // late
        };
        // At the last counter of all there are only late ones.
        let late = self.below(70) as u64;
        highest.checked_add(above).unwrap_or(highest - late)
    }

    /// A counter that is a repeat, where there is one: accepted and among the 64, or below them.
    fn repeat(&mut self, receiver: &Receiver) -> u64 {
        let top = receiver.highest as i128;
        let marked = receiver
            .accepted
            .iter()
            .filter(|&&n| n >= 0 && n > top - 64);
        let marked: Vec<u64> = marked.map(|&n| n as u64).collect();
        let few = self.below(70) as u64;
        let below = self.one_of(&[64, 64, 65, 66, 127, 128, 256 + few, (1 << 32) + few]);
        match receiver.highest.checked_sub(below) {
            Some(old) if marked.is_empty() || self.one_in(3) => old,
            None if marked.is_empty() => 0,
            _ => self.one_of(&marked),
        }
    }
}
