//! Counts what opens among the shortest ciphertexts: of t bytes the one sealing of the empty message, of t + 1
//! bytes the 256 sealings of the messages of one byte, and no other string.
//!
//!     target/tests/open_count [SEED]
//!
//! Not all strings of t bytes can be tried, so these are: the sealings, every string that differs from one in a
//! bit or in the last two bytes only, and many random ones. A run prints its seed, and the same seed makes the
//! same run. The exit status is 0 where what opens is what is sealed, 1 where it is not, and 2 where SEED is no
//! number.

#![allow(non_snake_case)] // the paper's names

#[path = "../library/mod.rs"]
mod library;
#[path = "../shared/mod.rs"]
mod shared;

use shared::expected::{sets, Act, Set, NONCE, OPEN, SEAL};
use shared::random::Random;
use shared::seed::{seed, wrong};
use std::collections::{BTreeMap, BTreeSet};
use std::process::exit;

const RANDOM: usize = 100_000; // strings of each length

/// One key, nonce and data, and the sealings under them of all messages of one length.
struct Count {
    s: Set,
    inputs: [Vec<u8>; 3],
    sealings: BTreeMap<Vec<u8>, Vec<u8>>,
    opened: BTreeSet<Vec<u8>>,
    refused: usize,
    differences: usize,
}

impl Count {
    fn new(s: Set, inputs: [Vec<u8>; 3], messages: &[Vec<u8>]) -> Count {
        let mut count = Count {
            s,
            inputs,
            sealings: BTreeMap::new(),
            opened: BTreeSet::new(),
            refused: 0,
            differences: 0,
        };
        for message in messages {
            let (answer, sealing) = count.call(&SEAL, message, message.len() + s.t);
            let other = count.sealings.insert(sealing, message.clone());
            count.differences += (answer != 0 || other.is_some()) as usize;
        }
        count
    }

    /// The answer and the output.
    fn call(&self, act: &Act, text: &[u8], out: usize) -> (u32, Vec<u8>) {
        let [key, nonce, data] = [0, 1, 2].map(|i| &self.inputs[i][..]);
        let inputs = [key, nonce, data, text].map(|input| (input.as_ptr(), input.len()));
        let mut bytes = vec![0xa5; out];
        let answer = unsafe { act.call(self.s.number, inputs, (bytes.as_mut_ptr(), out)) };
        (answer, bytes)
    }

    /// Opens a string: a sealing gives its message, any other is false.
    fn open(&mut self, text: &[u8]) {
        let out = text.len() - self.s.t;
        let found = self.call(&OPEN, text, out);
        let expected = match self.sealings.get(text) {
            Some(message) => (0, message.clone()),
            None => (8, vec![0; out]),
        };
        self.differences += (found != expected) as usize;
        match found.0 {
            0 => drop(self.opened.insert(text.to_vec())),
            _ => self.refused += 1,
        }
    }

    fn open_all(&mut self, random: &mut Random) {
        let sealings: Vec<Vec<u8>> = self.sealings.keys().cloned().collect();
        for sealing in &sealings {
            self.open(sealing);
            for bit in 0..8 * sealing.len() {
                let mut text = sealing.clone();
                text[bit / 8] ^= 0x80 >> (bit % 8);
                self.open(&text);
            }
        }
        let start = &sealings[0][..sealings[0].len() - 2];
        for end in 0..=u16::MAX {
            self.open(&[start, &end.to_be_bytes()].concat());
        }
        for _ in 0..RANDOM {
            self.open(&random.bytes(start.len() + 2));
        }
    }
}

fn main() {
    let args: Vec<String> = std::env::args().skip(1).collect();
    let word = match &args[..] {
        [] => None,
        [word] => Some(word.as_str()),
        _ => wrong("usage: open_count [SEED]"),
    };
    let mut random = Random(seed("open_count", word));
    let mut right = true;
    for s in sets() {
        let data = 1 + random.below(40);
        let inputs = [s.key, NONCE, data].map(|n| random.bytes(n));
        let empty = vec![vec![]];
        let one_byte: Vec<Vec<u8>> = (0..=255).map(|byte| vec![byte]).collect();
        let mut seen = vec![];
        for messages in [empty, one_byte] {
            let mut count = Count::new(s, inputs.clone(), &messages);
            count.open_all(&mut random);
            right &= count.differences == 0 && count.opened.len() == messages.len();
            seen.push(format!(
                "of {} bytes {} open and {} others are false, {} differences",
                s.t + messages[0].len(),
                count.opened.len(),
                count.refused,
                count.differences
            ));
        }
        println!("open_count: set {}: {}", s.number, seen.join("; "));
    }
    exit(if right { 0 } else { 1 })
}
