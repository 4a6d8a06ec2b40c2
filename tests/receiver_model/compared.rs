//! What the program writes for lists of records, held to the lines of the model, and in itself to cba_open and to the
//! counters that it has accepted.

use super::history::History;
use super::lists::List;
use super::plain::Plain;
use super::records::Record;
use crate::shared::programs::{differences, output};
use crate::shared::seed::wrong;

pub struct Compared {
    pub plain: Plain,
    pub history: History,
    lines: usize,
    differences: usize,
}

impl Compared {
    pub fn new(program: &str, lists: &[List]) -> Compared {
        let records = || lists.iter().flat_map(|list| &list.records);
        let found = output(program, records().flat_map(Record::bytes).collect());
        let (found, ended) = found.unwrap_or_else(|why| wrong(&format!("receiver_model: {why}")));
        let held: Vec<_> = lists.iter().map(List::held).collect();
        let (mut plain, mut history) = (Plain::default(), History::default());
        for (record, line) in records().zip(found.lines()) {
            plain.record(record, line);
            history.record(record, line);
        }
        Compared {
            plain,
            history,
            lines: found.lines().count(),
            differences: differences(&held, &found) + !ended as usize,
        }
    }

    pub fn show(&self, part: &str) {
        println!(
            "receiver_model: {part}, {} lines, {} differences",
            self.lines, self.differences
        );
        self.plain.show(part);
        self.history.show(part);
    }

    pub fn wrong(&self) -> bool {
        self.differences + self.plain.different != 0 || self.history.wrong()
    }
}
