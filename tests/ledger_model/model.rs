//! The key ledger of document 01, with the console number of F-2, the kept headings of F-3 and the charges of F-4.

use super::headings::{plain, Heading, NAMES, NOTHING};
use super::model_calls::Call;
use super::numbers::{number, start};
use crate::shared::expected::{set, MOST_DATA, MOST_TEXT, NONCE};
use crate::shared::mode::cba::SETS;
use crate::shared::scripts::filled;

#[derive(Clone, Debug, PartialEq)]
pub struct Ledger {
    pub set: u32,
    pub key: [u8; 32],
    pub console: u16,
    pub total: u64,
    pub heartbeats: bool, // whether an empty call is charged a block, or else, by the older charge, nothing
    pub begun: bool,
    pub last: [u8; NONCE],
    pub headings: [Heading; NAMES],
}

/// What a refused making returns: set 0, a key of zeros, console 0, total 0, the older charge, no nonce and nothing
/// kept.
pub const NO_LEDGER: Ledger = Ledger {
    set: 0,
    key: [0; 32],
    console: 0,
    total: 0,
    heartbeats: false,
    begun: false,
    last: [0; NONCE],
    headings: [NOTHING; NAMES],
};

/// 2^b, where there is such a set.
pub fn capacity(number: u32) -> Option<u128> {
    set(number).map(|_| 1 << SETS[number as usize - 1].2)
}

/// A making's answer and the ledger.
pub fn make(number: u32, console: u16, key: &[u8]) -> (u32, Ledger) {
    let Some(s) = set(number) else {
        return (1, NO_LEDGER);
    };
    if key.len() != s.key {
        return (2, NO_LEDGER);
    }
    let mut made = NO_LEDGER;
    made.set = number;
    made.console = console;
    made.heartbeats = true;
    made.key[..key.len()].copy_from_slice(key);
    (0, made)
}

impl Ledger {
    /// The same with the older charge.
    pub fn older(self) -> Ledger {
        Ledger {
            heartbeats: false,
            ..self
        }
    }

    /// What stands under a name, where it is one of the eight.
    pub fn heading(&self, name: u32) -> Option<&Heading> {
        self.headings.get(name as usize)
    }

    /// The names under which something is kept.
    pub fn kept(&self) -> Vec<u32> {
        (0..NAMES as u32)
            .filter(|&name| self.headings[name as usize].kept())
            .collect()
    }

    /// The sum for "spent" is exact: it does not wrap. The charge is the one that the ledger has at the call.
    pub fn sum(&self, call: &Call) -> u128 {
        self.total as u128 + call.charge(self.heartbeats) as u128
    }

    /// The checks of a call in their order, each with whether it applies. Where there is no set, 7 and 10 have no
    /// meaning, and where the nonce has no two bytes, 12 has none.
    fn checks(&self, call: &Call) -> Vec<(u32, bool)> {
        let no_set = (1, set(self.set).is_none());
        let most = capacity(self.set);
        let spent = (10, most.is_some_and(|most| self.sum(call) > most));
        // Both kinds of sealing, with the check of their data.
        let sealing = |nonce: &[u8], data, text, out| {
            vec![
                no_set,
                (3, nonce.len() != NONCE),
                (12, start(nonce).is_some_and(|n| n != self.console)),
                data,
                (5, text > MOST_TEXT),
                (7, set(self.set).is_some_and(|s| out < text + s.t)),
                (9, self.begun && number(nonce) <= number(&self.last)),
                spent,
            ]
        };
        match call {
            Call::Seal(c) => sealing(&c.nonce, (4, c.data > MOST_DATA), c.text, c.out),
            Call::Keep(c) => {
                let above_7 = (13, self.heading(c.name).is_none());
                vec![no_set, above_7, (4, c.data > MOST_DATA), spent]
            }
            Call::Name(c) => {
                let kept = self.heading(c.name).is_some_and(|h| h.kept());
                sealing(&c.nonce, (13, !kept), c.text, c.out)
            }
            Call::Carry => vec![no_set],
        }
    }

    /// The refusals that apply, in their order.
    pub fn refusals(&self, call: &Call) -> Vec<u32> {
        let applies = self.checks(call).into_iter().filter(|check| check.1);
        applies.map(|check| check.0).collect()
    }

    /// The answer, the next ledger and the output at exit.
    pub fn run(&self, call: &Call) -> (u32, Ledger, Vec<u8>) {
        let (mut next, mut out) = (self.clone(), call.out());
        if let Some(&answer) = self.refusals(call).first() {
            return (answer, next, out);
        }
        let key = &self.key[..set(self.set).expect("1 is refused").key];
        let result = match call {
            Call::Seal(c) => {
                let [data, text] = [(c.data, 0), (c.text, 1)].map(|(n, i)| filled(n, c.seeds[i]));
                plain(self.set, [key, &c.nonce, &data, &text])
            }
            Call::Keep(c) => {
                let kept = Heading::of(self.set, key, filled(c.data, c.seed));
                next.headings[c.name as usize] = kept;
                vec![]
            }
            Call::Name(c) => {
                let text = filled(c.text, c.seed);
                self.headings[c.name as usize].seal(self.set, [key, &c.nonce, &text])
            }
            Call::Carry => {
                next.heartbeats = true;
                vec![]
            }
        };
        out[..result.len()].copy_from_slice(&result);
        let total = self.sum(call).try_into();
        next.total = total.expect("10 is refused, and a carrying adds nothing");
        if let Some(nonce) = call.nonce() {
            next.begun = true;
            next.last = nonce[..].try_into().expect("3 is refused");
        }
        (0, next, out)
    }
}
