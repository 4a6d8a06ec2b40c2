//! Openings answered neither 12 nor 15, and records of plain opening, as the program's own lines have them, held to
//! cba_open: answer and output are its own.

use super::openings::Opening;
use super::records::Record;
use crate::shared::expected::{set, OPEN};
use crate::shared::mode::bytes::from_hex;
use crate::shared::scripts::{answer, by_answer, shown, Answers};

const SHOWN: usize = 5; // differences that are printed

#[derive(Default)]
pub struct Plain {
    openings: Answers,
    calls: Answers, // records of plain opening
    pub different: usize,
}

impl Plain {
    /// A record, and the line that the program has for it.
    pub fn record(&mut self, record: &Record, line: &str) {
        let (call, expected) = match record {
            Record::Open(_) if ["12", "15"].contains(&answer(line)) => return,
            Record::Open(call) => (call, opened(line, call, None)),
            Record::Plain(call, key) => (call, opened(line, call, Some(*key))),
            _ => return,
        };
        let same = expected.as_ref().is_some_and(|(a, out)| {
            let output = line.splitn(9, ' ').nth(8);
            answer(line) == a.to_string() && output == Some(out)
        });
        self.different += !same as usize;
        if !same && self.different <= SHOWN {
            eprintln!("not as cba_open, which has {expected:?}: {call:?}\n  found    {line}");
        }
        let counts = match record {
            Record::Plain(..) => &mut self.calls,
            _ => &mut self.openings,
        };
        *counts.entry(expected.map_or(0, |e| e.0)).or_default() += 1;
    }

    pub fn show(&self, part: &str) {
        println!(
            "receiver_model: {part}, compared with cba_open, {} different; openings, {}; records of plain opening, {}",
            self.different,
            by_answer(&self.openings),
            by_answer(&self.calls)
        );
    }

    /// A run with few of them shows little.
    pub fn many(&self, least: usize) {
        for (counts, answers) in [
            (&self.openings, &[0, 1, 3, 4, 5, 6, 7, 8][..]),
            (&self.calls, &[0, 1, 2, 3, 4, 5, 6, 7, 8]),
        ] {
            for a in answers {
                let n = counts.get(a).copied().unwrap_or(0);
                assert!(n >= least, "few compared with cba_open, answer {a}: {n}");
            }
        }
    }
}

/// cba_open's answer, and the output that it leaves as lines show it, under the set of the line and so many bytes of
/// its key, or as many as the set's key has.
fn opened(line: &str, call: &Opening, length: Option<u8>) -> Option<(u32, String)> {
    let mut fields = line.split(' ').skip(2);
    let number = fields.next()?.parse().ok()?;
    let key = from_hex(fields.next()?).ok()?;
    let own = set(number).map_or(key.len(), |s| s.key);
    let key = key.get(..length.map_or(own, |n| n as usize))?;
    let (data, text, mut out) = (call.data(), call.text.bytes(), call.out());
    let inputs = [key, &call.nonce, &data, &text].map(|input| (input.as_ptr(), input.len()));
    // Each pointer is to as many bytes as its length says.
    let answer = unsafe { OPEN.call(number, inputs, (out.as_mut_ptr(), out.len())) };
    Some((answer, shown(&out)))
}
