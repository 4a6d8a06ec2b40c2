//! A call with all it needs, ready to be made again and again.

use crate::candidates::{Call, Candidate, Inputs};
use crate::cases::{Act, Case, Set, NONCE};
use crate::random::Random;
use std::time::Instant;

pub struct Job {
    inputs: Inputs,
    call: Call,
    text: Vec<u8>,
    out: Vec<u8>,
    expected: Vec<u8>,
}

pub fn bytes(random: &mut Random, n: usize) -> Vec<u8> {
    (0..n).map(|_| random.number() as u8).collect()
}

/// The same for all candidates.
pub fn inputs(set: Set, data: usize, random: &mut Random) -> Inputs {
    Inputs {
        set,
        key: bytes(random, set.key),
        nonce: bytes(random, NONCE),
        data: bytes(random, data),
    }
}

impl Job {
    /// The candidate seals a message and opens what it sealed, which must be the message again.
    pub fn new(candidate: &Candidate, case: &Case) -> Job {
        let mut random = Random(case.size as u64);
        let inputs = inputs(case.set, case.data, &mut random);
        let message = bytes(&mut random, case.size);
        let mut sealed = vec![0; case.size + (candidate.tag)(case.set)];
        let mut opened = vec![0; case.size];
        let name = candidate.name;
        assert!((candidate.seal)(&inputs, &message, &mut sealed), "{name}");
        assert!((candidate.open)(&inputs, &sealed, &mut opened), "{name}");
        assert_eq!(opened, message, "{name} opens to another message");
        let (call, text, expected) = match case.act {
            Act::Seal => (candidate.seal, message, sealed),
            Act::Open => (candidate.open, sealed, message),
        };
        Job::held_to(expected, call, inputs, text)
    }

    /// The call must write what is expected.
    pub fn held_to(expected: Vec<u8>, call: Call, inputs: Inputs, text: Vec<u8>) -> Job {
        let out = vec![0; expected.len()];
        Job {
            inputs,
            call,
            text,
            out,
            expected,
        }
    }

    pub fn run(&mut self, calls: u32) {
        let mut well = true;
        for _ in 0..calls {
            well &= (self.call)(&self.inputs, &self.text, &mut self.out);
        }
        assert!(well, "a call failed");
    }

    /// Nanoseconds a call, after as many that are not counted and bring near what they read.
    pub fn sample(&mut self, calls: u32) -> f64 {
        self.run(calls);
        let start = Instant::now();
        self.run(calls);
        start.elapsed().as_nanos() as f64 / f64::from(calls)
    }

    /// What the last call wrote is right.
    pub fn check(&self) {
        assert_eq!(self.out, self.expected, "a call wrote something else");
    }
}
