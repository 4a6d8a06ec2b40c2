//! The steps of the script, each held to an answer and a total, and to what it may change in the ledger.

use super::headings::{Heading, Sum, NAMES, NOTHING};
use super::model::{Ledger, NO_LEDGER};
use super::model_calls::{ByName, Call, Keeping, Sealing};
use super::numbers::{nonce, nonce_on, MOST_NONCE};
use super::records::{by_hand, Record};
use crate::shared::scripts::{answer, filled, key, KEYS_AND_TAGS};

pub struct Script {
    pub records: Vec<Record>,
    pub lines: Vec<String>,
    pub ledger: Ledger,
    pub console: u16, // of the makings and hand-made ledgers, and what nonces begin with
    pub heartbeats: bool, // of fresh and hand-made ledgers
    pub lent: &'static [bool], // whether a sealing's ledger is lent, in turn
}

impl Script {
    pub fn new() -> Script {
        Script {
            records: vec![],
            lines: vec![],
            ledger: NO_LEDGER,
            console: 0,
            heartbeats: true,
            lent: &[false],
        }
    }

    fn add(&mut self, record: Record) {
        self.lines.push(record.line(&mut self.ledger));
        self.records.push(record);
    }

    fn says(&self, expected: u32) {
        let line = self.lines.last().expect("a line");
        let step = self.lines.len();
        let expected = expected.to_string();
        assert_eq!(answer(line), expected, "step {step}: another answer");
    }

    /// Steps on older ledgers.
    pub fn on_older(&mut self, steps: impl Fn(&mut Script)) {
        self.heartbeats = false;
        steps(self);
        self.heartbeats = true;
    }

    /// The same steps on newer ones as well.
    pub fn on_both(&mut self, steps: impl Fn(&mut Script)) {
        self.on_older(&steps);
        steps(self);
    }

    /// What an empty call is charged.
    pub fn empty(&self) -> u64 {
        self.heartbeats as u64
    }

    /// The answer to an empty call on a full ledger.
    pub fn when_full(&self) -> u32 {
        [0, 10][self.heartbeats as usize]
    }

    /// A making with the key's first bytes, 00 after the 32. A refused one leaves console 0 and the older charge.
    pub fn make(&mut self, answer: u32, set: u32, length: usize) {
        let key: Vec<u8> = key().into_iter().chain([0; 32]).take(length).collect();
        self.add(Record::Make(set, self.console, key));
        self.says(answer);
        let made = &self.ledger;
        let console = if answer == 0 { self.console } else { 0 };
        assert_eq!((made.console, made.total), (console, 0), "another ledger");
        assert_eq!(made.heartbeats, answer == 0, "another charge");
        assert_eq!(made.headings, [NOTHING; NAMES], "something kept");
    }

    /// A made ledger, or one like it with the older charge.
    pub fn fresh(&mut self, set: u32) {
        self.make(0, set, KEYS_AND_TAGS[set as usize - 1].0);
        if !self.heartbeats {
            self.put_back(self.ledger.clone().older());
        }
    }

    /// The last nonce begins with the console number.
    pub fn put(&mut self, set: u32, total: u64, last: Option<u128>) {
        self.put_last(set, total, last.map(|low| nonce_on(self.console, low)));
    }

    pub fn put_last(&mut self, set: u32, total: u64, last: Option<Vec<u8>>) {
        let begun = last.is_some();
        let last = last.unwrap_or(nonce(MOST_NONCE)); // of no use where there is none
        self.put_back(Ledger {
            set,
            key: key(),
            console: self.console,
            total,
            heartbeats: self.heartbeats,
            begun,
            last: last.try_into().expect("12 bytes"),
            headings: [NOTHING; NAMES],
        });
    }

    /// With what is kept in it.
    pub fn put_back(&mut self, ledger: Ledger) {
        self.console = ledger.console;
        for record in by_hand(&ledger) {
            self.add(record);
        }
    }

    pub fn hold(&mut self, name: u8, kept: bool, sum: Sum) {
        self.add(Record::Hold(name, Heading::Hand(kept, sum)));
    }

    /// A call that must give the answer and leave the total. Accepted, a sealing changes the last nonce as well, a
    /// keeping what is under its name, and a carrying the charge; nothing else changes.
    fn call(&mut self, (answer, total): (u32, u64), call: Call) {
        let mut next = self.ledger.clone();
        next.total = total;
        self.add(Record::Call(call.clone()));
        self.says(answer);
        match call {
            _ if answer != 0 => {}
            Call::Seal(Sealing { nonce, .. }) | Call::Name(ByName { nonce, .. }) => {
                next.begun = true;
                next.last = nonce.try_into().expect("12 bytes");
            }
            Call::Keep(c) => {
                let new = &self.ledger.headings[c.name as usize];
                let data = filled(c.data, c.seed);
                assert!(matches!(new, Heading::Data(kept, _) if *kept == data));
                next.headings[c.name as usize] = new.clone();
            }
            Call::Carry => next.heartbeats = true,
        }
        let step = self.lines.len();
        assert_eq!(self.ledger, next, "step {step}: another ledger");
    }

    pub fn seal_bytes(&mut self, expected: (u32, u64), nonce: Vec<u8>, lengths: [usize; 3]) {
        let [data, text, out] = lengths;
        let lent = self.lent[self.records.len() % self.lent.len()];
        let seeds = [1, 2];
        let sealing = Sealing {
            lent,
            nonce,
            data,
            text,
            out,
            seeds,
        };
        self.call(expected, Call::Seal(sealing));
    }

    /// The number is the nonce's after the console number.
    pub fn seal(&mut self, expected: (u32, u64), low: u128, lengths: [usize; 3]) {
        self.seal_on(self.console, expected, low, lengths);
    }

    pub fn seal_on(&mut self, console: u16, expected: (u32, u64), low: u128, lengths: [usize; 3]) {
        self.seal_bytes(expected, nonce_on(console, low), lengths);
    }

    /// Of the data that an ordinary sealing of that length has: both have the seed 1.
    pub fn keep(&mut self, expected: (u32, u64), name: u32, data: usize) {
        self.keep_seed(expected, name, data, 1);
    }

    pub fn keep_seed(&mut self, expected: (u32, u64), name: u32, data: usize, seed: u8) {
        self.call(expected, Call::Keep(Keeping { name, data, seed }));
    }

    /// A sealing by name, of the message that an ordinary sealing has.
    pub fn name(&mut self, expected: (u32, u64), name: u32, low: u128, lengths: [usize; 2]) {
        self.name_bytes(expected, name, nonce_on(self.console, low), lengths);
    }

    pub fn name_bytes(
        &mut self,
        expected: (u32, u64),
        name: u32,
        nonce: Vec<u8>,
        [text, out]: [usize; 2],
    ) {
        let seed = 2;
        let by_name = ByName {
            name,
            nonce,
            text,
            out,
            seed,
        };
        self.call(expected, Call::Name(by_name));
    }

    pub fn carry(&mut self, answer: u32) {
        self.call((answer, self.ledger.total), Call::Carry);
    }

    /// The output of the step so many steps before the last, which is a sealing.
    pub fn output(&self, before: usize) -> &str {
        let line = &self.lines[self.lines.len() - 1 - before];
        let fields = line.splitn(18, ' ');
        fields.last().expect("an output")
    }
}
