//! Random lists of records.

use super::model::Receiver;
use super::radio::Radio;
use super::records::Record;
use super::seen::Seen;
use super::steps::Script;
use super::values::NOTHING;
use crate::shared::expected::set;
use crate::shared::random::Random;
use crate::shared::scripts::answer;

/// Records, and the lines that the program must print for them.
pub struct List {
    pub records: Vec<Record>,
    pub lines: Vec<String>,
    receiver: Receiver,
    radio: Radio,
}

/// The script, as one list.
impl From<Script> for List {
    fn from(script: Script) -> List {
        List {
            records: script.records,
            lines: script.lines,
            receiver: script.receiver,
            radio: Radio::default(),
        }
    }
}

impl List {
    fn new() -> List {
        List {
            records: vec![],
            lines: vec![],
            receiver: Receiver::of(&NOTHING),
            radio: Radio::default(),
        }
    }

    /// To what the program's lines are held.
    pub fn held(&self) -> (&[Record], &[String]) {
        (&self.records, &self.lines)
    }

    fn add(&mut self, record: Record, seen: &mut Seen) {
        let before = self.receiver.clone();
        let line = record.line(&mut self.receiver);
        seen.record(&before, &record, answer(&line).parse().unwrap_or(0));
        self.records.push(record);
        self.lines.push(line);
    }

    /// A receiver in place of the one there: made, or one time in four hand-made.
    fn another(&mut self, random: &mut Random, seen: &mut Seen) {
        let record = match random.one_in(4) {
            true => Record::Put(random.hand_made()),
            false => random.making(),
        };
        self.add(record, seen);
        self.radio = Radio::default();
    }

    /// An opening, and at times plain opening of the same, under as many bytes of the key as the set's has or others.
    fn delivery(&mut self, random: &mut Random, seen: &mut Seen) {
        let wished = random.wishes();
        let piece = self.radio.opening(random, &self.receiver, &wished);
        let call = random.with_faults(piece, self.receiver.set, &wished);
        self.add(Record::Open(call.clone()), seen);
        if random.one_in(12) {
            let right = set(self.receiver.set).map_or(32, |s| s.key as u8);
            let length = match random.one_in(8) {
                true => random.one_of(&[0, 15, 16, 17, 24, 31, 32]),
                false => right,
            };
            self.add(Record::Plain(call, length), seen);
        }
    }
}

/// A receiver and 1 to 24 openings, seldom with another receiver between.
pub fn list(random: &mut Random, seen: &mut Seen) -> List {
    let mut list = List::new();
    list.another(random, seen);
    for _ in 0..1 + random.below(24) {
        // One with no set soon gives way: its openings all answer 1.
        let again = match set(list.receiver.set) {
            Some(_) => 64,
            None => 3,
        };
        if random.one_in(again) {
            list.another(random, seen);
        } else {
            list.delivery(random, seen);
        }
    }
    list
}
