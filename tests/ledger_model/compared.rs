//! What the program writes for lists of records, held to the lines of the model, and in itself to cba_seal and to the
//! sums of the charges.

use super::lists::List;
use super::plain::Plain;
use super::records::Record;
use super::totals::Totals;
use crate::shared::programs::{differences, output};
use crate::shared::seed::wrong;

pub struct Compared {
    pub found: String,
    pub plain: Plain,
    pub totals: Totals,
    differences: usize,
}

impl Compared {
    pub fn new(program: &str, lists: &[List]) -> Compared {
        let records = || lists.iter().flat_map(|list| &list.records);
        let found = output(program, records().flat_map(Record::bytes).collect());
        let (found, ended) = found.unwrap_or_else(|why| wrong(&format!("ledger_model: {why}")));
        let held: Vec<_> = lists.iter().map(List::held).collect();
        let differences = differences(&held, &found) + !ended as usize;
        let (mut plain, mut totals) = (Plain::default(), Totals::default());
        for (record, line) in records().zip(found.lines()) {
            plain.record(record, line);
            totals.record(record, line);
        }
        totals.end();
        Compared {
            found,
            plain,
            totals,
            differences,
        }
    }

    pub fn show(&self, part: &str) {
        println!(
            "ledger_model: {part}, {} lines, {} differences; {} sealings by name compared with cba_seal, {} different",
            self.found.lines().count(),
            self.differences,
            self.plain.compared,
            self.plain.different
        );
        self.totals.show(part);
    }

    pub fn wrong(&self) -> bool {
        self.differences + self.plain.different + self.totals.different != 0
    }
}
