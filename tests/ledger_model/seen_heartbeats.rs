//! What the random lists tried with the two charges: empty calls, and carryings.

use super::model::{capacity, Ledger};
use super::model_calls::Call;
use super::seen::kind;

const MANY: usize = 10;

/// Empty sealings, keepings and sealings by name.
type Empty = [usize; 3];

#[derive(Default)]
pub struct Heartbeats {
    pub accepted: [Empty; 2], // on older ledgers and on newer ones
    pub on_full: Empty,       // of those on older ones, on ledgers with a total of 2^b
    pub filling: Empty,       // of those on newer ones, with 2^b after it
    pub spent: Empty,         // refused with 10, on newer ledgers that are not above 2^b
    pub carried: usize,       // carryings accepted on older ledgers
    pub again: usize,         // on newer ones
    pub refused: [usize; 2],  // carryings refused, on older ledgers and on newer ones
}

impl Heartbeats {
    /// A call on the ledger as it stands before, and the answer.
    pub fn call(&mut self, ledger: &Ledger, call: &Call, answer: u32) {
        match kind(call) {
            Some(kind) if call.empty() => self.empty(ledger, kind, answer),
            Some(_) => {}
            None => self.carrying(ledger.heartbeats, answer),
        }
    }

    fn carrying(&mut self, newer: bool, answer: u32) {
        let count = match (answer, newer) {
            (0, false) => &mut self.carried,
            (0, true) => &mut self.again,
            _ => &mut self.refused[newer as usize],
        };
        *count += 1;
    }

    fn empty(&mut self, ledger: &Ledger, kind: usize, answer: u32) {
        let left = capacity(ledger.set).and_then(|most| most.checked_sub(ledger.total as u128));
        if answer == 0 {
            self.accepted[ledger.heartbeats as usize][kind] += 1;
        }
        match (ledger.heartbeats, answer, left) {
            (false, 0, Some(0)) => self.on_full[kind] += 1,
            (true, 0, Some(1)) => self.filling[kind] += 1,
            (true, 10, Some(0)) => self.spent[kind] += 1,
            _ => {}
        }
    }

    pub fn all(&self) {
        let [older, newer] = self.accepted;
        let carryings = [self.carried, self.again];
        let empty = [older, newer, self.on_full, self.filling, self.spent].concat();
        for n in [&empty[..], &carryings, &self.refused].concat() {
            assert!(n >= MANY, "few empty calls or carryings: {n}");
        }
    }
}
