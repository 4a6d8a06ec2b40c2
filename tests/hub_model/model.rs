//! The hub program of documents 01 and 02, written a second time.

use crate::shared::expected::{Act, OPEN, SEAL};
use crate::shared::mode::bytes::{from_hex, to_hex};
use std::collections::BTreeMap;
use std::io::{BufRead, Result, Write};

pub const FIRST: &str = "act set key nonce data text";
pub const HEADING: &str = "line answer result";
pub const SUMMARY: &str = "set accepted";
pub const LF: u8 = b'\n';
pub const MOST_LINE: usize = 4096; // bytes, LF not counted
pub const MOST_LINES: usize = 9999; // after the first

/// What a well-formed line asks for: the call, the set, and key, nonce, data and text.
fn request(line: &[u8]) -> Option<(Act, u32, [Vec<u8>; 4])> {
    if line.len() > MOST_LINE {
        return None;
    }
    // A line that is no UTF-8 has a byte that is not in the grammar.
    let words: Vec<&str> = std::str::from_utf8(line).ok()?.split(' ').collect();
    let [act, set, values @ ..] = &words[..] else {
        return None;
    };
    let act = match *act {
        "seal" => SEAL,
        "open" => OPEN,
        _ => return None,
    };
    // A number has one way to be written: no sign, and no zero before it.
    let number = set.parse().ok().filter(|n: &u32| n.to_string() == *set)?;
    let values: Vec<Vec<u8>> = values.iter().map_while(|w| from_hex(w).ok()).collect();
    let well_formed = number <= 999 && words.len() == 6;
    well_formed.then_some((act, number, values.try_into().ok()?))
}

/// What is said of a line.
pub struct Answer {
    pub answer: u32,
    pub result: Vec<u8>,
    /// Where it is accepted.
    set: Option<u32>,
}

pub fn answer(line: &[u8]) -> Answer {
    let refused = |answer| Answer {
        answer,
        result: vec![],
        set: None,
    };
    let Some((act, set, values)) = request(line) else {
        return refused(11);
    };
    let values = [0, 1, 2, 3].map(|i| &values[i][..]);
    // The output is always long enough.
    let refusal = act.refusal(set, values.map(<[u8]>::len), usize::MAX);
    if refusal != 0 {
        return refused(refusal);
    }
    match (act.expected)(set, values) {
        (0, result) => Answer {
            answer: 0,
            result,
            set: Some(set),
        },
        (refusal, _) => refused(refusal),
    }
}

/// Writes what the program writes for these lines.
pub fn write_for(
    mut lines: impl Iterator<Item = impl AsRef<[u8]>>,
    out: &mut impl Write,
) -> Result<()> {
    writeln!(out, "{HEADING}")?;
    let first = lines.next();
    if !first.is_some_and(|line| line.as_ref() == FIRST.as_bytes()) {
        return writeln!(out, "0 11 -");
    }
    let mut accepted = BTreeMap::<u32, usize>::new();
    for (number, line) in (1..=MOST_LINES).zip(lines) {
        let said = answer(line.as_ref());
        let result = to_hex(&said.result);
        writeln!(out, "{number} {} {result}", said.answer)?;
        if let Some(set) = said.set {
            *accepted.entry(set).or_default() += 1;
        }
    }
    writeln!(out, "{SUMMARY}")?;
    // A map's keys rise, as numbers: document 02, F-1.
    for (set, count) in accepted {
        writeln!(out, "{set} {count}")?;
    }
    Ok(())
}

/// LF ends a line and begins none.
pub fn lines(input: &[u8]) -> impl Iterator<Item = &[u8]> {
    let parts = input.split_inclusive(|&byte| byte == LF);
    parts.map(|part| part.strip_suffix(&[LF]).unwrap_or(part))
}

/// The whole run: bytes in, bytes out.
pub fn output(input: &[u8]) -> Vec<u8> {
    let mut out = vec![];
    write_for(lines(input), &mut out).expect("a vector takes all");
    out
}

/// The lines of an input that need not fit into memory. Of a long one 4,097 bytes are kept, which are as
/// malformed as all of it.
pub struct Lines<R>(pub R);

impl<R: BufRead> Iterator for Lines<R> {
    type Item = Vec<u8>;

    fn next(&mut self) -> Option<Vec<u8>> {
        let mut line = None;
        loop {
            let bytes = self.0.fill_buf().expect("an input");
            if bytes.is_empty() {
                return line;
            }
            let end = bytes.iter().position(|&byte| byte == LF);
            let part = &bytes[..end.unwrap_or(bytes.len())];
            let kept = line.get_or_insert_with(Vec::new);
            let room = MOST_LINE + 1 - kept.len();
            kept.extend(&part[..part.len().min(room)]);
            let read = part.len() + end.is_some() as usize;
            self.0.consume(read);
            if end.is_some() {
                return line;
            }
        }
    }
}
