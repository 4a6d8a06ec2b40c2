//! Random lists of calls.

use super::model::{Ledger, NO_LEDGER};
use super::model_calls::Call;
use super::records::{by_hand, Record};
use super::seen::Seen;
use super::steps::Script;
use crate::shared::expected::set;
use crate::shared::random::Random;
use crate::shared::scripts::answer;

/// Records, and the lines that the program must print for them.
pub struct List {
    pub records: Vec<Record>,
    pub lines: Vec<String>,
    ledger: Ledger,
}

/// The script, as one list.
impl From<Script> for List {
    fn from(script: Script) -> List {
        List {
            records: script.records,
            lines: script.lines,
            ledger: script.ledger,
        }
    }
}

impl List {
    fn new() -> List {
        List {
            records: vec![],
            lines: vec![],
            ledger: NO_LEDGER,
        }
    }

    /// To what the program's lines are held.
    pub fn held(&self) -> (&[Record], &[String]) {
        (&self.records, &self.lines)
    }

    fn add(&mut self, record: Record, seen: &mut Seen) {
        let before = self.ledger.clone();
        let line = record.line(&mut self.ledger);
        seen.record(&before, &record, answer(&line).parse().unwrap_or(0));
        self.records.push(record);
        self.lines.push(line);
    }

    /// Another ledger in place of the one there: made, fresh with the older charge, or hand-made.
    fn another(&mut self, random: &mut Random, seen: &mut Seen) {
        match random.below(4) {
            0 => self.add(random.making(), seen),
            1 => self.put(&random.fresh_older(), seen),
            _ => {
                let console = random.console();
                self.put(&random.hand_made(console), seen);
            }
        }
    }

    /// Puts a ledger there, with what is kept in it.
    fn put(&mut self, ledger: &Ledger, seen: &mut Seen) {
        for record in by_hand(ledger) {
            self.add(record, seen);
        }
    }
}

/// A made, a fresh older or a hand-made ledger and 1 to 16 calls, seldom with another such ledger between, or something
/// held by hand.
pub fn list(random: &mut Random, seen: &mut Seen) -> List {
    let mut list = List::new();
    let calls = 1 + random.below(16);
    for i in 0..=calls {
        // One with no set soon gives way: its calls all answer 1.
        let again = if set(list.ledger.set).is_some() {
            32
        } else {
            4
        };
        if i > 0 && random.one_in(32) {
            let (name, heading) = random.held();
            list.add(Record::Hold(name, heading), seen);
        } else if i > 0 && !random.one_in(again) {
            let call = random.call(&list.ledger);
            list.add(Record::Call(call), seen);
        } else {
            list.another(random, seen);
        }
    }
    list
}

/// Two to four numbers, all different.
fn consoles(random: &mut Random) -> Vec<u16> {
    let mut all = vec![random.console()];
    let count = 2 + random.below(3);
    while all.len() < count {
        let other = random.other_console(all[0]);
        if !all.contains(&other) {
            all.push(other);
        }
    }
    all
}

/// Ledgers of one key for two to four consoles, half of them with the older charge. One time in three their last nonces
/// are hand-made.
fn ledgers(random: &mut Random, list: &mut List, seen: &mut Seen) -> Vec<Ledger> {
    let number = random.any_set();
    let key = random.bytes(set(number).expect("a set").key);
    let by_hand = random.one_in(3);
    let mut all = vec![];
    for console in consoles(random) {
        list.add(Record::Make(number, console, key.clone()), seen);
        let mut ledger = list.ledger.clone();
        if random.one_in(2) {
            ledger = ledger.older();
        }
        if by_hand {
            let Ledger { begun, last, .. } = random.hand_made(console);
            ledger = Ledger {
                begun,
                last,
                ..ledger
            };
        }
        all.push(ledger);
    }
    all
}

/// Two to four ledgers of one key with different console numbers, and 6 to 19 turns, each on one of them, which is
/// put back before it with what is kept in it, and has 1 to 3 calls. One nonce in three is one that another of them
/// has accepted.
pub fn one_key(random: &mut Random, seen: &mut Seen) -> List {
    let mut list = List::new();
    let mut all = ledgers(random, &mut list, seen);
    let mut accepted: Vec<(usize, Vec<u8>)> = vec![];
    for _ in 0..6 + random.below(14) {
        let i = random.below(all.len());
        list.put(&all[i], seen);
        for _ in 0..1 + random.below(3) {
            let call = next_call(random, &list.ledger, i, &accepted);
            if list.ledger.refusals(&call).is_empty() {
                accepted.extend(call.nonce().map(|nonce| (i, nonce.clone())));
            }
            list.add(Record::Call(call), seen);
        }
        all[i] = list.ledger.clone();
    }
    list
}

/// On ledger i, where these nonces were accepted on which ledgers.
fn next_call(
    random: &mut Random,
    ledger: &Ledger,
    i: usize,
    accepted: &[(usize, Vec<u8>)],
) -> Call {
    let others: Vec<_> = accepted.iter().filter(|(of, _)| *of != i).collect();
    if others.is_empty() || !random.one_in(3) {
        return random.call(ledger);
    }
    let nonce = &others[random.below(others.len())].1;
    random.sealing_with(ledger, nonce)
}
