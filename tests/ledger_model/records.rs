//! The records and lines of crates/ledger_script, as its src/main.rt says.

use super::headings::{Heading, NAMES, NOTHING};
use super::model::{make, Ledger};
use super::model_calls::Call;
use crate::shared::mode::bytes::to_hex;
use crate::shared::scripts::{length, shown, MOST_HEADER, MOST_OUT};

#[derive(Clone, Debug)]
pub enum Record {
    Make(u32, u16, Vec<u8>), // set, console and key
    Put(Ledger),             // with nothing kept
    Hold(u8, Heading),       // a name, and what the ledger has there
    Call(Call),
}

/// The records that make a ledger by hand: a put, and a hold for each name that has something. The program is given the
/// sums alone; the model goes on with the data that its set and key have kept there.
pub fn by_hand(ledger: &Ledger) -> Vec<Record> {
    let holds = (0..).zip(&ledger.headings).filter(|(_, h)| **h != NOTHING);
    let holds = holds.map(|(name, h)| Record::Hold(name, h.clone()));
    [Record::Put(ledger.clone())]
        .into_iter()
        .chain(holds)
        .collect()
}

fn call_bytes(call: &Call) -> Vec<u8> {
    match call {
        Call::Seal(c) => [
            &[2 + c.lent as u8, c.nonce.len() as u8],
            &length(c.data, MOST_HEADER)[..],
            &length(c.text, MOST_OUT),
            &length(c.out, MOST_OUT),
            &c.seeds,
            &c.nonce,
        ]
        .concat(),
        Call::Keep(c) => [
            &[5],
            &c.name.to_be_bytes()[..],
            &length(c.data, MOST_HEADER),
            &[c.seed],
        ]
        .concat(),
        Call::Name(c) => [
            &[6],
            &c.name.to_be_bytes()[..],
            &[c.nonce.len() as u8],
            &length(c.text, MOST_OUT),
            &length(c.out, MOST_OUT),
            &[c.seed],
            &c.nonce,
        ]
        .concat(),
        Call::Carry => vec![7],
    }
}

impl Record {
    pub fn bytes(&self) -> Vec<u8> {
        let mut bytes = match self {
            Record::Make(set, console, key) => [
                &[0],
                &set.to_be_bytes()[..],
                &console.to_be_bytes(),
                &[key.len() as u8],
                key,
            ]
            .concat(),
            Record::Put(l) => [
                &[1],
                &l.set.to_be_bytes()[..],
                &l.key,
                &l.console.to_be_bytes(),
                &l.total.to_be_bytes(),
                &[l.begun as u8],
                &l.last,
                &[l.heartbeats as u8],
            ]
            .concat(),
            Record::Hold(name, h) => [&[4, *name, h.kept() as u8], &h.sum()[..]].concat(),
            Record::Call(call) => call_bytes(call),
        };
        assert!(bytes.len() <= 64, "too long for a record");
        bytes.resize(64, 0);
        bytes
    }

    /// What the record does to a ledger, and the line that it prints.
    pub fn line(&self, ledger: &mut Ledger) -> String {
        let (start, out) = match self {
            Record::Make(set, console, key) => {
                let (answer, made) = make(*set, *console, key);
                *ledger = made;
                (format!("make {answer}"), String::new())
            }
            Record::Put(l) => {
                *ledger = l.clone();
                ledger.headings = [NOTHING; NAMES];
                ("put -".into(), String::new())
            }
            Record::Hold(name, heading) => {
                ledger.headings[*name as usize] = heading.clone();
                ("hold -".into(), String::new())
            }
            Record::Call(call) => {
                let (answer, next, out) = ledger.run(call);
                *ledger = next;
                let out = format!(" {}", shown(&out));
                match call {
                    Call::Seal(c) if c.lent => (format!("lent {answer}"), out),
                    Call::Seal(_) => (format!("seal {answer}"), out),
                    Call::Keep(_) => (format!("keep {answer}"), String::new()),
                    Call::Name(_) => (format!("name {answer}"), out),
                    Call::Carry => (format!("carry {answer}"), String::new()),
                }
            }
        };
        format!("{start} {}{out}", fields(ledger))
    }
}

fn fields(ledger: &Ledger) -> String {
    let Ledger {
        set,
        key,
        console,
        total,
        heartbeats,
        begun,
        last,
        headings,
    } = ledger;
    let (key, last) = (to_hex(key), to_hex(last));
    let [heartbeats, begun] = [heartbeats, begun].map(|&flag| flag as u8);
    let headings: Vec<String> = headings.iter().map(Heading::word).collect();
    let headings = headings.join(" ");
    format!("{set} {key} {console} {total} {heartbeats} {begun} {last} {headings}")
}
