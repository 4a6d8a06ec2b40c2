//! What the random lists tried.

use super::model::{plain, Receiver};
use super::openings::Opening;
use super::records::Record;
use super::script_order::{APART, ORDER};
use super::seen_window::Window;
use crate::shared::scripts::Answers;
use std::collections::BTreeMap;

const MANY: usize = 10;
const LONG: usize = 2_000; // whether a refused ciphertext that is longer is false is not asked, for it takes long

/// What was seen, by the model.
#[derive(Default)]
pub struct Seen {
    pub makings: Answers,
    pub put: usize,
    pub plain: Answers,
    pub openings: [Answers; 2], // on made receivers, and on hand-made ones
    by_hand: bool,              // whether the receiver there is a hand-made one
    pub pairs: BTreeMap<(u32, u32), usize>,
    pub accepted: [usize; 10], // in each set
    pub window: Window,
}

impl Seen {
    /// A record, on the receiver as it stands before, and the answer, 0 where it has none.
    pub fn record(&mut self, receiver: &Receiver, record: &Record, answer: u32) {
        match record {
            Record::Make(..) => {
                *self.makings.entry(answer).or_default() += 1;
                self.by_hand = false;
                self.window.another();
            }
            Record::Put(_) => {
                self.put += 1;
                self.by_hand = true;
                self.window.another();
            }
            Record::Plain(..) => *self.plain.entry(answer).or_default() += 1,
            Record::Open(call) => {
                let counts = &mut self.openings[self.by_hand as usize];
                *counts.entry(answer).or_default() += 1;
                self.refusals(receiver, call);
                self.window.opening(receiver, call, answer);
                if answer == 0 {
                    self.accepted[receiver.set as usize - 1] += 1;
                }
            }
        }
    }

    /// Each two that go together. What is false is plain opening's to say, with an output that is long enough.
    fn refusals(&mut self, receiver: &Receiver, call: &Opening) {
        let mut all = receiver.refusals(call);
        if !all.is_empty() && call.text.len() < LONG {
            let call = Opening {
                out: call.text.len(),
                ..call.clone()
            };
            let (answer, _) = plain(receiver.set, receiver.own_key(), &call);
            all.extend((answer == 8).then_some(8));
        }
        for (i, &first) in all.iter().enumerate() {
            for &second in &all[i + 1..] {
                *self.pairs.entry((first, second)).or_default() += 1;
            }
        }
    }

    /// A run that did not try what it is there for is worth nothing.
    pub fn all(&self) {
        let has = |counts: &Answers, answers: &[u32]| {
            for a in answers {
                let n = counts.get(a).copied().unwrap_or(0);
                assert!(n >= MANY, "few with answer {a}: {n}");
            }
        };
        has(&self.makings, &[0, 1, 2]);
        for counts in &self.openings {
            has(counts, &[&[0], &ORDER[..]].concat());
        }
        assert!(self.accepted.iter().all(|&n| n >= MANY), "few in a set");
        assert!(self.put >= MANY, "few hand-made receivers");
        self.all_pairs();
        self.window.all();
    }

    /// Every two meet that can. 5, 6 and 7 ask for a set's tag, and whether it is false is not asked where there is no
    /// set, no nonce, or a length that is not allowed.
    fn all_pairs(&self) {
        for (i, &first) in ORDER.iter().enumerate() {
            for &second in &ORDER[i + 1..] {
                let no_tag = first == 1 && [5, 6, 7, 8].contains(&second);
                let not_asked = second == 8 && [3, 4, 5, 6].contains(&first);
                let meet = !no_tag && !not_asked && !APART.contains(&(first, second));
                let n = self.pairs.get(&(first, second)).copied().unwrap_or(0);
                assert!(!meet || n >= MANY, "few {first} with {second}: {n}");
            }
        }
    }
}
