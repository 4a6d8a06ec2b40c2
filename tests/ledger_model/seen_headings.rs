//! What the random lists tried with kept headings.

use super::headings::{Heading, NAMES, NOTHING};
use super::model::Ledger;
use super::model_calls::{Call, Keeping};
use super::records::Record;
use crate::shared::scripts::filled;
use std::collections::BTreeMap;

const MANY: usize = 10;

#[derive(Default)]
pub struct Headings {
    pub sealed: [usize; NAMES], // accepted sealings under each name, of data that were kept there
    pub replaced: usize,        // accepted keepings under a name with something kept
    pub again: usize, // of these, with the data that were kept there, of which there are some
    pub before_nonces: usize, // accepted keepings on a ledger with no last nonce
    refused: BTreeMap<u32, u32>, // names with something kept where the last keeping was refused, and its answer
    pub after_refusal: BTreeMap<u32, usize>, // accepted sealings under such a name, by that answer
    pub empty: usize,            // accepted sealings of empty data that were kept
    pub by_hand: usize,          // accepted sealings of a hand-made sum
    pub refused_for: [usize; 3], // sealings answered 13: above 7, nothing kept, and a sum with no flag
    pub kept_above_7: usize,     // keepings answered 13
}

impl Headings {
    /// A record, on the ledger as it stands before, and the answer.
    pub fn record(&mut self, ledger: &Ledger, record: &Record, answer: u32) {
        match record {
            Record::Make(..) | Record::Put(_) => self.refused.clear(),
            Record::Hold(name, ..) => {
                self.refused.remove(&(*name as u32));
            }
            Record::Call(Call::Keep(c)) => self.keeping(ledger, c, answer),
            Record::Call(Call::Name(c)) => self.sealing(ledger, c.name, answer),
            Record::Call(Call::Seal(_) | Call::Carry) => {}
        }
    }

    fn keeping(&mut self, ledger: &Ledger, call: &Keeping, answer: u32) {
        let heading = ledger.heading(call.name);
        let kept = heading.is_some_and(|h| h.kept());
        self.kept_above_7 += (answer == 13) as usize;
        if answer == 0 {
            let new = filled(call.data, call.seed);
            let same = matches!(heading, Some(Heading::Data(old, _)) if *old == new);
            self.replaced += kept as usize;
            self.again += (same && !new.is_empty()) as usize;
            self.before_nonces += !ledger.begun as usize;
            self.refused.remove(&call.name);
        } else if kept {
            self.refused.insert(call.name, answer);
        }
    }

    fn sealing(&mut self, ledger: &Ledger, name: u32, answer: u32) {
        let heading = ledger.heading(name);
        if answer == 13 {
            let why = match heading {
                None => 0,
                Some(h) if *h == NOTHING => 1,
                Some(_) => 2,
            };
            self.refused_for[why] += 1;
        }
        let (0, Some(heading)) = (answer, heading) else {
            return;
        };
        match heading {
            Heading::Data(data, _) => {
                self.sealed[name as usize] += 1;
                self.empty += data.is_empty() as usize;
            }
            Heading::Hand(..) => self.by_hand += 1,
        }
        if let Some(&refusal) = self.refused.get(&name) {
            *self.after_refusal.entry(refusal).or_default() += 1;
        }
    }

    pub fn all(&self) {
        let many = |n: usize, what: &str| assert!(n >= MANY, "{what}: {n}");
        for n in self.sealed {
            many(n, "sealings under a name");
        }
        many(self.replaced, "names replaced");
        many(self.again, "the same data kept again");
        many(self.before_nonces, "keepings before the first nonce");
        for answer in [4, 10] {
            let n = self.after_refusal.get(&answer).copied().unwrap_or(0);
            many(n, "sealings after a refused keeping");
        }
        many(self.empty, "sealings of empty data");
        many(self.by_hand, "sealings of a hand-made sum");
        for n in self.refused_for {
            many(n, "names refused in sealings");
        }
        many(self.kept_above_7, "names refused in keepings");
    }
}
