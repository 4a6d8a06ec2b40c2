//! The totals of lists of calls from fresh ledgers, as the program's own lines have them: each is the sum of the
//! charges of the calls accepted so far, older ones before the first accepted carrying and newer ones after it, and at
//! most 2^b. The records and the answers in the lines decide on that sum, and no other field.

use super::model::{capacity, make, Ledger};
use super::model_calls::Call;
use super::records::Record;
use crate::shared::expected::set;
use crate::shared::scripts::answer;

const SHOWN: usize = 5; // differences that are printed
const MANY: usize = 50;

/// A list of calls from a fresh ledger.
struct FromFresh {
    newer: bool, // from the start
    most: u128,  // 2^b
    calls: usize,
    carryings: usize, // accepted
    total: u64,       // the sum of the charges
    empty: [bool; 2], // whether an empty call was accepted by the older charge, and by the newer one
}

impl FromFresh {
    fn new(set: u32, newer: bool) -> Option<FromFresh> {
        Some(FromFresh {
            newer,
            most: capacity(set)?,
            calls: 0,
            carryings: 0,
            total: 0,
            empty: [false; 2],
        })
    }
}

#[derive(Default)]
pub struct Totals {
    compared: usize,
    pub different: usize,
    lists: [[usize; 3]; 2], // from older ledgers and newer ones, with no accepted carrying, one, and more
    both: usize,            // with one, and empty calls accepted before it and after it
    list: Option<FromFresh>,
}

/// Whether it is as a making leaves it, with either charge.
fn fresh(ledger: &Ledger) -> bool {
    set(ledger.set).is_some_and(|s| {
        let (_, made) = make(ledger.set, ledger.console, &ledger.key[..s.key]);
        ledger.clone().older() == made.older()
    })
}

/// The field of a line.
fn total(line: &str) -> Option<u64> {
    line.split(' ').nth(5)?.parse().ok()
}

impl Totals {
    /// A record, and the line that the program has for it.
    pub fn record(&mut self, record: &Record, line: &str) {
        let accepted = answer(line) == "0";
        match record {
            Record::Make(set, ..) => self.start(FromFresh::new(*set, true).filter(|_| accepted)),
            Record::Put(l) => self.start(FromFresh::new(l.set, l.heartbeats).filter(|_| fresh(l))),
            Record::Hold(..) => self.start(None), // no call
            Record::Call(call) => self.call(call, accepted, line),
        }
    }

    /// The list before has ended; on a fresh ledger another begins.
    fn start(&mut self, new: Option<FromFresh>) {
        let before = std::mem::replace(&mut self.list, new);
        if let Some(list) = before.filter(|list| list.calls > 0) {
            self.lists[list.newer as usize][list.carryings.min(2)] += 1;
            self.both += (list.carryings == 1 && list.empty == [true; 2]) as usize;
        }
    }

    fn call(&mut self, call: &Call, accepted: bool, line: &str) {
        let Some(list) = &mut self.list else { return };
        let newer = list.newer || list.carryings > 0;
        list.calls += 1;
        if accepted {
            list.total += call.charge(newer);
            list.carryings += matches!(call, Call::Carry) as usize;
            list.empty[newer as usize] |= call.empty();
        }
        let same = total(line) == Some(list.total) && list.total as u128 <= list.most;
        self.compared += 1;
        self.different += !same as usize;
        if !same && self.different <= SHOWN {
            let sum = list.total;
            eprintln!("the charges add up to {sum}: {call:?}\n  found    {line}");
        }
    }

    /// The last list has ended.
    pub fn end(&mut self) {
        self.start(None);
    }

    pub fn show(&self, part: &str) {
        let [older, newer] = self.lists;
        println!(
            "ledger_model: {part}, {} totals compared with the sum of the charges, {} different; lists with 0, 1 and \
             more carryings, from older ledgers {older:?}, from newer ones {newer:?}; {} with empty calls before and \
             after one",
            self.compared, self.different, self.both
        );
    }

    /// A run with few of them shows little.
    pub fn many(&self) {
        for n in self.lists.concat().into_iter().chain([self.both]) {
            assert!(n >= MANY, "few lists: {n}");
        }
    }
}
