//! Scripts for crates/ledger_script and crates/receiver_script, whose records are described there: a ledger with data
//! kept under the name 0, or a receiver, and calls of one kind, all accepted or all refused by one of the first checks.
//! A refused call is given the same strings and prints much the same line, so that what a script of accepted ones takes
//! beyond it is the work of the calls. Openings are refused by their set, so that all other checks are counted.

use crate::candidates::Inputs;
use crate::cases::{Set, NONCE};
use crate::us;

const MESSAGE: usize = 32;
const SEED: u8 = 1; // of an opening's data

fn three(n: usize) -> [u8; 3] {
    let [_, bytes @ ..] = (n as u32).to_be_bytes();
    bytes
}

/// A nonce that begins with zeros, or one byte less of it, which a ledger refuses with 3.
fn nonce(n: u8, accepted: bool) -> Vec<u8> {
    let mut nonce = vec![0; NONCE];
    nonce[NONCE - 1] = n;
    nonce.split_off(!accepted as usize)
}

fn record(parts: &[&[u8]]) -> Vec<u8> {
    let mut bytes = parts.concat();
    bytes.resize(64, 0);
    bytes
}

fn make(set: Set) -> Vec<u8> {
    let key = vec![7; set.key];
    record(&[
        &[0],
        &set.number.to_be_bytes(),
        &[0, 0, set.key as u8],
        &key,
    ])
}

fn keep(name: u32, data: usize) -> Vec<u8> {
    record(&[&[5], &name.to_be_bytes(), &three(data), &[1]])
}

fn sealing(set: Set, data: usize, nonce: &[u8]) -> Vec<u8> {
    let lengths = [data, MESSAGE, MESSAGE + set.tag].map(three).concat();
    record(&[&[2, nonce.len() as u8], &lengths, &[1, 2], nonce])
}

fn by_name(set: Set, nonce: &[u8]) -> Vec<u8> {
    let lengths = [MESSAGE, MESSAGE + set.tag].map(three).concat();
    record(&[&[6, 0, 0, 0, 0, nonce.len() as u8], &lengths, &[2], nonce])
}

/// A making and a keeping, then the calls. Keepings are refused by their name.
pub fn script(kind: &str, set: Set, data: usize, accepted: bool, count: u8) -> Option<Vec<u8>> {
    let call = |n| match kind {
        "given" => Some(sealing(set, data, &nonce(n, accepted))),
        "name" => Some(by_name(set, &nonce(n, accepted))),
        "keep" => Some(keep(if accepted { 0 } else { 8 }, data)),
        _ => None,
    };
    let calls: Option<Vec<_>> = (1..=count).map(call).collect();
    Some([make(set), keep(0, data), calls?.concat()].concat())
}

/// A receiver, or, where no set has the number, none, on which every opening is refused with 1.
fn make_receiver(number: u32, set: Set) -> Vec<u8> {
    let key = vec![7; set.key];
    record(&[
        &[0],
        &number.to_be_bytes(),
        &[0, 0, 0, 0, set.key as u8],
        &key,
    ])
}

/// A sealed message.
fn sealed(set: Set, size: usize, data: usize, n: u8) -> Vec<u8> {
    let inputs = Inputs {
        set,
        key: vec![7; set.key],
        nonce: nonce(n, true),
        data: (0..data).map(|i| SEED + (i % 251) as u8).collect(),
    };
    let mut text = vec![0; size + set.tag];
    assert!(us::seal(&inputs, &vec![n; size], &mut text), "no sealing");
    text
}

/// A making, then openings or plain openings of messages that are sealed under the counters 1, 2, and so on. Plain
/// opening is told how many bytes the key has.
pub fn openings(
    kind: &str,
    set: Set,
    [size, data]: [usize; 2],
    accepted: bool,
    count: u8,
) -> Option<Vec<u8>> {
    let kind = match kind {
        "open" => 2,
        "plain" => 4,
        _ => return None,
    };
    let lengths = [data, size + set.tag, size].map(three).concat();
    let call = |n| {
        let nonce = nonce(n, true);
        let head = [
            &[kind, nonce.len() as u8],
            &lengths[..],
            &[SEED, set.key as u8],
            &nonce,
        ];
        [record(&head), sealed(set, size, data, n)].concat()
    };
    let calls: Vec<_> = (1..=count).map(call).collect();
    let number = if accepted { set.number } else { 0 };
    Some([make_receiver(number, set), calls.concat()].concat())
}
