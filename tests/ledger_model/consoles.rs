//! The accepted nonces of lists on ledgers of one key, as the program's own lines have them: none is accepted on two
//! consoles, and each begins with its console's number.

use super::lists::List;
use super::records::Record;
use crate::shared::mode::bytes::to_hex;
use std::collections::BTreeMap;

const MANY: usize = 5_000;

#[derive(Default)]
pub struct Nonces {
    accepted: usize,
    by_name: usize,   // of these, sealings by name
    on_two: usize,    // consoles, under one key
    elsewhere: usize, // begin with another number than their console's
    again: usize,     // calls with a nonce that was accepted on another console
    refused: usize,   // of these, with answer 12
}

/// What a line says of a sealing, by name or not: its answer, the console and the last nonce.
fn sealing(line: &str) -> Option<(&str, u16, &str)> {
    let words: Vec<&str> = line.split(' ').collect();
    match words[..] {
        ["seal" | "lent" | "name", answer, _, _, console, _, _, _, last, ..] => {
            Some((answer, console.parse().ok()?, last))
        }
        _ => None,
    }
}

impl Nonces {
    /// Of the lists after the first `others`, which are lists on ledgers of one key.
    pub fn read(lists: &[List], others: usize, found: &str) -> Nonces {
        let (first, one_key) = lists.split_at(others);
        let skipped = first.iter().map(|list| list.records.len()).sum();
        let mut lines = found.lines().skip(skipped);
        let mut nonces = Nonces::default();
        for list in one_key {
            let mut consoles = BTreeMap::new(); // of the nonces accepted in this list
            for (record, line) in list.records.iter().zip(&mut lines) {
                let Record::Call(call) = record else { continue };
                if let Some(nonce) = call.nonce() {
                    nonces.call(&to_hex(nonce), line, &mut consoles);
                }
            }
        }
        nonces
    }

    fn call<'a>(&mut self, nonce: &str, line: &'a str, consoles: &mut BTreeMap<&'a str, u16>) {
        let Some((answer, console, last)) = sealing(line) else {
            return; // a difference
        };
        if consoles.get(nonce).is_some_and(|&of| of != console) {
            self.again += 1;
            self.refused += (answer == "12") as usize;
        }
        if answer == "0" {
            self.accepted += 1;
            self.by_name += line.starts_with("name") as usize;
            self.elsewhere += !last.starts_with(&format!("{console:04x}")) as usize;
            let before = consoles.insert(last, console);
            self.on_two += before.is_some_and(|of| of != console) as usize;
        }
    }

    pub fn show(&self, lists: usize) {
        println!(
            "ledger_model: {lists} lists on ledgers of one key; {} accepted nonces compared, {} of them by name, {} \
             on two consoles, {} with another start; {} tried on another console, {} answered 12",
            self.accepted, self.by_name, self.on_two, self.elsewhere, self.again, self.refused
        );
    }

    pub fn wrong(&self) -> bool {
        self.on_two + self.elsewhere != 0
    }

    /// A run with few of them shows little.
    pub fn many(&self) {
        let ordinary = self.accepted - self.by_name;
        assert!(
            self.by_name.min(ordinary) >= MANY / 2,
            "few accepted nonces"
        );
        assert!(self.again >= MANY, "few nonces on another console");
        assert_eq!(self.refused, self.again, "another answer than 12");
    }
}
