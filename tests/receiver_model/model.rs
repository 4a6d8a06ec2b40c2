//! The receiver of F-7. It keeps the accepted counters as a set of numbers, all of them, and has no marks: these are
//! made from the set where they are shown.

use super::numbers::{counter, prefix};
use super::openings::Opening;
use super::values::{Values, NOTHING};
use crate::shared::expected::{set, MOST_DATA, MOST_TEXT, NONCE, OPEN};
use std::collections::BTreeSet;

pub const WINDOW: i128 = 64;

#[derive(Clone, Debug)]
pub struct Receiver {
    pub set: u32,
    pub key: [u8; 32],
    pub prefix: u32,
    pub begun: bool,
    pub highest: u64,
    pub accepted: BTreeSet<i128>, // a hand-made receiver may have marks below counter 0
}

/// A making's answer and the receiver.
pub fn make(number: u32, key: &[u8], prefix: u32) -> (u32, Receiver) {
    let mut made = Receiver::of(&NOTHING);
    match set(number) {
        None => (1, made),
        Some(s) if key.len() != s.key => (2, made),
        Some(_) => {
            made.set = number;
            made.prefix = prefix;
            made.key[..key.len()].copy_from_slice(key);
            (0, made)
        }
    }
}

/// Plain opening's answer, and the output at exit.
pub fn plain(number: u32, key: &[u8], call: &Opening) -> (u32, Vec<u8>) {
    let (data, text, mut out) = (call.data(), call.text.bytes(), call.out());
    let inputs = [key, &call.nonce, &data, &text];
    let refusal = OPEN.refusal(number, inputs.map(|input| input.len()), out.len());
    if refusal != 0 {
        return (refusal, out);
    }
    let (answer, result) = (OPEN.expected)(number, inputs);
    out[..result.len()].copy_from_slice(&result);
    (answer, out)
}

impl Receiver {
    pub fn of(values: &Values) -> Receiver {
        let marked = (0..64).filter(|i| values.marks >> i & 1 == 1);
        let highest = values.highest as i128;
        Receiver {
            set: values.set,
            key: values.key,
            prefix: values.prefix,
            begun: values.begun,
            highest: values.highest,
            accepted: marked.map(|i| highest - i as i128).collect(),
        }
    }

    pub fn values(&self) -> Values {
        let at = |i: &u32| self.accepted.contains(&(self.highest as i128 - *i as i128));
        Values {
            set: self.set,
            key: self.key,
            prefix: self.prefix,
            begun: self.begun,
            highest: self.highest,
            marks: (0..64).filter(at).map(|i| 1 << i).sum(),
        }
    }

    /// The bytes of the key that are used.
    pub fn own_key(&self) -> &[u8] {
        &self.key[..set(self.set).map_or(32, |s| s.key)]
    }

    /// Whether the counter was accepted before or lies 64 or more below the highest.
    pub fn repeat(&self, counter: u64) -> bool {
        let below = self.highest as i128 - counter as i128;
        self.begun && (below >= WINDOW || self.accepted.contains(&(counter as i128)))
    }

    /// The checks of an opening in their order but for the last, which is plain opening's, each with whether it
    /// applies. Where there is no set there is no tag, and where the nonce is too short no prefix or counter.
    fn checks(&self, call: &Opening) -> [(u32, bool); 8] {
        let s = set(self.set);
        let text = call.text.len();
        [
            (1, s.is_none()),
            (3, call.nonce.len() != NONCE),
            (12, prefix(&call.nonce).is_some_and(|n| n != self.prefix)),
            (4, call.data > MOST_DATA),
            (5, s.is_some_and(|s| text > MOST_TEXT + s.t)),
            (6, s.is_some_and(|s| text < s.t)),
            (7, s.is_some_and(|s| call.out + s.t < text)),
            (15, counter(&call.nonce).is_some_and(|n| self.repeat(n))),
        ]
    }

    /// Those that apply, in their order.
    pub fn refusals(&self, call: &Opening) -> Vec<u32> {
        let applies = self.checks(call).into_iter().filter(|check| check.1);
        applies.map(|check| check.0).collect()
    }

    /// The answer, and the output at exit.
    pub fn open(&mut self, call: &Opening) -> (u32, Vec<u8>) {
        if let Some(&answer) = self.refusals(call).first() {
            return (answer, call.out());
        }
        let (answer, out) = plain(self.set, self.own_key(), call);
        if answer == 0 {
            self.accept(counter(&call.nonce).expect("3 is refused"));
        }
        (answer, out)
    }

    fn accept(&mut self, counter: u64) {
        if !self.begun {
            self.accepted.clear(); // what a hand-made one has there
            self.highest = counter;
        }
        self.begun = true;
        self.highest = self.highest.max(counter);
        self.accepted.insert(counter as i128);
    }
}
