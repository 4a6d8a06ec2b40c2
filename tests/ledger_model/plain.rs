//! Sealings by name that the program accepted, as its own lines have them, held to cba_seal: each is the plain sealing
//! with the data that the program last accepted for keeping under that name on that ledger.

use super::headings::Heading;
use super::model_calls::{ByName, Call};
use super::records::Record;
use crate::shared::expected::{set, SEAL};
use crate::shared::mode::bytes::from_hex;
use crate::shared::scripts::{answer, filled, shown, OUT_SEED};
use std::collections::BTreeMap;

const SHOWN: usize = 5; // differences that are printed

#[derive(Default)]
pub struct Plain {
    pub compared: usize,
    pub different: usize,
    kept: BTreeMap<u32, Vec<u8>>, // the data, where no sum was made by hand in their place
}

impl Plain {
    /// A record, and the line that the program has for it.
    pub fn record(&mut self, record: &Record, line: &str) {
        let accepted = answer(line) == "0";
        match record {
            Record::Make(..) | Record::Put(_) => self.kept.clear(),
            // A ledger is put back with the sums of data that were kept.
            Record::Hold(name, Heading::Data(data, _)) => {
                self.kept.insert(*name as u32, data.clone());
            }
            Record::Hold(name, Heading::Hand(..)) => drop(self.kept.remove(&(*name as u32))),
            Record::Call(Call::Keep(c)) if accepted => {
                self.kept.insert(c.name, filled(c.data, c.seed));
            }
            Record::Call(Call::Name(by_name)) if accepted => self.sealing(by_name, line),
            _ => {}
        }
    }

    /// An accepted one. What is not in `kept` is a sum that was made by hand.
    fn sealing(&mut self, call: &ByName, line: &str) {
        let Some(data) = self.kept.get(&call.name) else {
            return;
        };
        let expected = sealed(line, call, data);
        let same = expected.is_some_and(|out| line.ends_with(&format!(" {out}")));
        self.compared += 1;
        self.different += !same as usize;
        if !same && self.different <= SHOWN {
            let n = data.len();
            eprintln!("not as cba_seal with {n} bytes: {call:?}\n  found    {line}");
        }
    }

    /// A run with few of them shows little.
    pub fn many(&self, least: usize) {
        assert!(self.compared >= least, "few sealings by name");
    }
}

/// The output that cba_seal leaves, as lines show it, under the set and the key of the line, where it answers 0.
fn sealed(line: &str, call: &ByName, data: &[u8]) -> Option<String> {
    let mut fields = line.split(' ').skip(2);
    let number = fields.next()?.parse().ok()?;
    let key = from_hex(fields.next()?).ok()?;
    let key = key.get(..set(number)?.key)?;
    let text = filled(call.text, call.seed);
    let mut out = filled(call.out, OUT_SEED);
    let inputs = [key, &call.nonce, data, &text].map(|input| (input.as_ptr(), input.len()));
    // Each pointer is to as many bytes as its length says.
    let answer = unsafe { SEAL.call(number, inputs, (out.as_mut_ptr(), out.len())) };
    (answer == 0).then(|| shown(&out))
}
