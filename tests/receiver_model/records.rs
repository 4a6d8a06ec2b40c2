//! The records and lines of crates/receiver_script.

use super::model::{make, plain, Receiver};
use super::openings::{Opening, Text};
use super::values::Values;
use crate::shared::scripts::{length, shown, MOST_HEADER, MOST_OUT};

const HEAD: usize = 64;

#[derive(Clone, Debug)]
pub enum Record {
    Make(u32, u32, Vec<u8>), // set, prefix and key
    Put(Values),
    Open(Opening),
    Plain(Opening, u8), // plain opening under so many bytes of the receiver's key
}

/// A head, in which what is not looked at is mostly not 0.
fn head(mut bytes: Vec<u8>, most: usize) -> Vec<u8> {
    assert!(bytes.len() <= most, "too long for a record");
    let other = bytes
        .iter()
        .fold(7, |sum: u8, byte| sum.wrapping_add(*byte));
    bytes.resize(HEAD, other);
    bytes
}

/// The head of an opening of some kind, with what byte 12 has.
fn opening(kind: u8, call: &Opening, twelve: u8) -> Vec<u8> {
    let bytes = [
        &[kind, call.nonce.len() as u8],
        &length(call.data, MOST_HEADER)[..],
        &length(call.text.len(), MOST_OUT),
        &length(call.out, MOST_OUT),
        &[call.seed, twelve],
        &call.nonce,
    ];
    head(bytes.concat(), HEAD)
}

impl Record {
    pub fn bytes(&self) -> Vec<u8> {
        match self {
            Record::Make(set, prefix, key) => {
                let numbers = [set.to_be_bytes(), prefix.to_be_bytes()].concat();
                let bytes = [&[0], &numbers[..], &[key.len() as u8], key];
                head(bytes.concat(), HEAD)
            }
            Record::Put(v) => {
                let bytes = [
                    &[1],
                    &v.set.to_be_bytes()[..],
                    &v.key,
                    &v.prefix.to_be_bytes(),
                    &[if v.begun { v.highest as u8 | 1 } else { 0 }], // any but 0
                    &v.highest.to_be_bytes(),
                    &v.marks.to_be_bytes(),
                ];
                head(bytes.concat(), 58)
            }
            Record::Open(call) => match &call.text {
                Text::Given(text) => [opening(2, call, !call.seed), text.clone()].concat(),
                Text::Noise(_, seed) => opening(3, call, *seed),
            },
            Record::Plain(call, key) => [opening(4, call, *key), call.text.bytes()].concat(),
        }
    }

    /// What the record does to a receiver, and the line that it prints.
    pub fn line(&self, receiver: &mut Receiver) -> String {
        let (start, out) = match self {
            Record::Make(set, prefix, key) => {
                let (answer, made) = make(*set, key, *prefix);
                *receiver = made;
                (format!("make {answer}"), None)
            }
            Record::Put(values) => {
                *receiver = Receiver::of(values);
                ("put -".into(), None)
            }
            Record::Open(call) => {
                let (answer, out) = receiver.open(call);
                (format!("open {answer}"), Some(out))
            }
            Record::Plain(call, key) => {
                let key = &receiver.key[..*key as usize];
                let (answer, out) = plain(receiver.set, key, call);
                (format!("plain {answer}"), Some(out))
            }
        };
        let out = out.map_or(String::new(), |out| format!(" {}", shown(&out)));
        format!("{start} {}{out}", receiver.values().shown())
    }
}
