//! Lists of openings from made receivers, as the program's own lines have them: no counter is accepted twice, and a
//! counter is a repeat exactly where it was accepted before or lies 64 or more below the greatest accepted. The records
//! and the answers in the lines decide, and no other field.

use super::numbers::counter;
use super::openings::Opening;
use super::records::Record;
use crate::shared::scripts::answer;
use std::collections::BTreeSet;

const SHOWN: usize = 5; // differences that are printed

#[derive(Default)]
pub struct History {
    lists: usize,
    accepted: usize,
    twice: usize,                // of these, the same counter a second time
    again: usize,                // openings of a counter that was accepted before, answered 15
    below: usize,                // of one 64 or more below, not accepted before, answered 15
    otherwise: usize,            // answered 15 with no reason, or 8 with one
    list: Option<BTreeSet<u64>>, // the counters accepted so far
}

impl History {
    /// A record, and the line that the program has for it.
    pub fn record(&mut self, record: &Record, line: &str) {
        match record {
            Record::Make(..) => {
                self.list = (answer(line) == "0").then(BTreeSet::new);
                self.lists += self.list.is_some() as usize;
            }
            Record::Put(_) => self.list = None,
            Record::Open(call) => self.opening(call, line),
            Record::Plain(..) => {}
        }
    }

    /// Answers 0, 8 and 15 are given to nonces of 12 bytes.
    fn opening(&mut self, call: &Opening, line: &str) {
        let (Some(accepted), Some(n)) = (&mut self.list, counter(&call.nonce)) else {
            return;
        };
        let before = accepted.contains(&n);
        let below = accepted
            .last()
            .is_some_and(|&most| most - n.min(most) >= 64);
        let right = match answer(line) {
            "0" => {
                self.accepted += 1;
                self.twice += !accepted.insert(n) as usize;
                !before && !below
            }
            "8" => !before && !below,
            "15" => before || below,
            _ => return,
        };
        let repeat = answer(line) == "15";
        self.again += (repeat && before) as usize;
        self.below += (repeat && below && !before) as usize;
        self.otherwise += !right as usize;
        if !right && self.otherwise <= SHOWN {
            eprintln!(
                "accepted before: {before}, 64 or more below: {below}: {call:?}\n  found    {line}"
            );
        }
    }

    pub fn show(&self, part: &str) {
        println!(
            "receiver_model: {part}, {} lists from made receivers, {} counters accepted, {} of them twice; repeats of \
             accepted ones {}, of others 64 or more below {}; not as their history has it {}",
            self.lists, self.accepted, self.twice, self.again, self.below, self.otherwise
        );
    }

    pub fn wrong(&self) -> bool {
        self.twice + self.otherwise != 0
    }

    /// A run with few of them shows little.
    pub fn many(&self, least: usize) {
        for n in [self.accepted, self.again, self.below] {
            assert!(n >= least, "few counters in lists from made receivers: {n}");
        }
    }
}
