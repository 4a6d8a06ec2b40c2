//! What a call is held to: the table of answers, and the mode written a second time.

use super::mode::aes::Aes;
use super::mode::bytes::{to_bits, to_bytes};
use super::mode::cba::{Cba, SETS};
use std::ops::RangeInclusive;

pub const NONCE: usize = 12;
pub const MOST_DATA: usize = 4096;
pub const MOST_TEXT: usize = 65536; // of a message

/// A set's lengths in bytes.
#[derive(Clone, Copy)]
pub struct Set {
    pub number: u32,
    pub key: usize,
    pub t: usize,
    pub l: usize,
}

pub fn set(number: u32) -> Option<Set> {
    let &(k, tau, _) = SETS.get((number as usize).checked_sub(1)?)?;
    Some(Set {
        number,
        key: k / 8,
        t: tau / 8,
        l: reference(number).l / 8,
    })
}

pub fn sets() -> impl Iterator<Item = Set> {
    (1..=10).map(|number| set(number).expect("ten sets"))
}

/// The reference with the parameters of one of the ten sets.
pub fn reference(number: u32) -> Cba {
    let (_, tau, b) = SETS[number as usize - 1];
    Cba::new(tau, b)
}

/// What a function of the library is held to.
pub struct Act {
    pub name: &'static str,
    pub answers: &'static [u32],
    /// The lengths that a text can have.
    pub texts: fn(Set) -> RangeInclusive<usize>,
    /// The length of the result for a text of such a length.
    pub result_len: fn(Set, usize) -> usize,
    /// The reference's answer and the bytes that are written, for key, nonce, data and text that no length refuses.
    pub expected: fn(u32, [&[u8]; 4]) -> (u32, Vec<u8>),
}

pub const SEAL: Act = Act {
    name: "cba_seal",
    answers: &[0, 1, 2, 3, 4, 5, 7],
    texts: |_| 0..=MOST_TEXT,
    result_len: |s, text| text + s.t,
    expected: |number, [key, nonce, data, text]| {
        let [N, A, M] = [nonce, data, text].map(to_bits);
        let C = reference(number).ENC(&Aes::new(key), &N, &A, &M);
        (0, to_bytes(&C.expect("a nonce of 12 bytes")))
    },
};

pub const OPEN: Act = Act {
    name: "cba_open",
    answers: &[0, 1, 2, 3, 4, 5, 6, 7, 8],
    texts: |s| s.t..=MOST_TEXT + s.t,
    result_len: |s, text| text - s.t,
    expected: |number, [key, nonce, data, text]| {
        let [N, A, C] = [nonce, data, text].map(to_bits);
        let p = reference(number);
        match p.DEC(&Aes::new(key), &N, &A, &C) {
            Some(M) => (0, to_bytes(&M)),
            None => (8, vec![0; text.len() - p.tau / 8]),
        }
    },
};

impl Act {
    /// The table of answers as far as lengths decide: the first that applies, for the lengths of key, nonce,
    /// data and text.
    pub fn refusal(&self, number: u32, [key, nonce, data, text]: [usize; 4], out: usize) -> u32 {
        let Some(s) = set(number) else { return 1 };
        let texts = (self.texts)(s);
        match () {
            _ if key != s.key => 2,
            _ if nonce != NONCE => 3,
            _ if data > MOST_DATA => 4,
            _ if text > *texts.end() => 5,
            _ if text < *texts.start() => 6,
            _ if out < (self.result_len)(s, text) => 7,
            _ => 0,
        }
    }
}

/// The form that a message of this many bytes takes: 0 short, 1 joined, 2 separate.
pub fn form(s: Set, message: usize) -> usize {
    if message <= s.l {
        return 0;
    }
    let before_last = (message - s.l - 1) / 16;
    let last = message - s.l - 16 * before_last;
    if before_last >= 1 && last + s.t <= 16 {
        1
    } else {
        2
    }
}
