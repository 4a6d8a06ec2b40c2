//! What the random lists tried.

use super::model::{capacity, Ledger};
use super::model_calls::Call;
use super::numbers::{number, start};
use super::records::Record;
use super::script_order::{KEEP, NAME, SEAL};
use super::seen_headings::Headings;
use super::seen_heartbeats::Heartbeats;
use crate::shared::scripts::Answers;
use std::collections::BTreeSet;

/// The refusals of a sealing, a keeping and a sealing by name, in their order.
const CHECKS: [&[u32]; 3] = [&SEAL, &KEEP, &NAME];

/// The place of a call's kind among these; a carrying has none.
pub fn kind(call: &Call) -> Option<usize> {
    match call {
        Call::Seal(_) => Some(0),
        Call::Keep(_) => Some(1),
        Call::Name(_) => Some(2),
        Call::Carry => None,
    }
}

/// What was seen of the calls of one kind.
#[derive(Default)]
pub struct Kind {
    pub pairs: BTreeSet<(u32, u32)>,
    full: BTreeSet<u32>,   // sets in which a charge above 0 led to 2^b exactly
    over: BTreeSet<u32>,   // sets in which the sum was 2^b + 1
    pub above_2_64: usize, // sums of 2^64 or more
}

/// What was seen of the calls on ledgers with one of the two charges.
#[derive(Default)]
pub struct Calls {
    pub answers: [Answers; 4], // sealings by value and on a lent ledger, keepings, sealings by name
    pub kinds: [Kind; 3],      // sealings, keepings, sealings by name
}

/// What was seen, by the model.
#[derive(Default)]
pub struct Seen {
    pub makings: Answers,
    pub put: usize,
    pub held: usize,
    pub calls: [Calls; 2], // on older ledgers and on newer ones
    pub headings: Headings,
    pub heartbeats: Heartbeats,
    refused: Option<u128>, // the nonce of the sealing before, where that was refused
    after_refusal: usize,  // accepted just after a refused one with a nonce as high or higher
    pub other_last: Answers, // where the last nonce begins with another number
}

impl Seen {
    /// A record, on the ledger as it stands before, and the answer, 0 where it has none.
    pub fn record(&mut self, ledger: &Ledger, record: &Record, answer: u32) {
        match record {
            Record::Make(..) => {
                *self.makings.entry(answer).or_default() += 1;
                self.refused = None;
            }
            Record::Put(_) => {
                self.put += 1;
                self.refused = None;
            }
            Record::Hold(..) => self.held += 1,
            Record::Call(call) => {
                self.calls[ledger.heartbeats as usize].call(ledger, call, answer);
                self.nonce(ledger, call, answer);
                self.heartbeats.call(ledger, call, answer);
            }
        }
        self.headings.record(ledger, record, answer);
    }

    fn nonce(&mut self, ledger: &Ledger, call: &Call, answer: u32) {
        let Some(n) = call.nonce().map(|nonce| number(nonce)) else {
            return;
        };
        if ledger.begun && start(&ledger.last) != Some(ledger.console) {
            *self.other_last.entry(answer).or_default() += 1;
        }
        let above = self.refused.is_some_and(|r| r >= n);
        self.after_refusal += (answer == 0 && above) as usize;
        self.refused = (answer != 0).then_some(n);
    }

    /// A run that did not try what it is there for is worth nothing.
    pub fn all(&self) {
        assert!(
            [0, 1, 2].iter().all(|a| self.makings.contains_key(a)),
            "a making's answer is missing"
        );
        for calls in &self.calls {
            calls.all();
        }
        assert!(self.after_refusal > 0, "a case is missing");
        for answer in [0, 9, 12] {
            assert!(
                self.other_last.contains_key(&answer),
                "no answer {answer} after a nonce of another console"
            );
        }
        self.headings.all();
        self.heartbeats.all();
    }
}

impl Calls {
    fn call(&mut self, ledger: &Ledger, call: &Call, answer: u32) {
        let Some(kind) = kind(call) else { return };
        let place = match call {
            Call::Seal(c) => c.lent as usize,
            _ => kind + 1,
        };
        *self.answers[place].entry(answer).or_default() += 1;
        self.kinds[kind].call(ledger, call);
    }

    fn all(&self) {
        for (counts, kind) in self.answers.iter().zip([0, 0, 1, 2]) {
            assert!(counts.contains_key(&0), "none is accepted");
            for answer in CHECKS[kind] {
                assert!(counts.contains_key(answer), "no answer {answer}");
            }
        }
        for (kind, checks) in self.kinds.iter().zip(CHECKS) {
            kind.all(checks);
        }
    }
}

impl Kind {
    fn call(&mut self, ledger: &Ledger, call: &Call) {
        let refusals = ledger.refusals(call);
        for (i, &first) in refusals.iter().enumerate() {
            let after = refusals[i + 1..].iter();
            self.pairs.extend(after.map(|&second| (first, second)));
        }
        let sum = ledger.sum(call);
        self.above_2_64 += (sum >> 64 > 0) as usize;
        match (capacity(ledger.set), &refusals[..]) {
            (Some(most), []) if sum == most && ledger.total as u128 != most => {
                self.full.insert(ledger.set);
            }
            (Some(most), [10]) if sum == most + 1 => {
                self.over.insert(ledger.set);
            }
            _ => {}
        }
    }

    /// Every two refusals meet, but for 1 with 7 and with 10, which ask for a set's tag and capacity. 3 meets 12 where
    /// the nonce has two bytes or more.
    fn all(&self, checks: &[u32]) {
        for (i, &first) in checks.iter().enumerate() {
            for &second in &checks[i + 1..] {
                let meet = first != 1 || ![7, 10].contains(&second);
                assert!(
                    !meet || self.pairs.contains(&(first, second)),
                    "no {first} with {second}"
                );
            }
        }
        assert!(
            self.full.len() == 10 && self.over.len() == 10,
            "a capacity is not met"
        );
        assert!(self.above_2_64 > 0, "no sum of 2^64");
    }
}
