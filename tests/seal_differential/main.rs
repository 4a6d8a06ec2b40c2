//! Holds cba_seal to its table of answers and to the reference, the mode written a second time.
//!
//!     target/tests/seal_differential [SEED] [FILE_IN FILE_OUT]
//!
//! A run prints its seed, and the same seed makes the same run. With two files, as tests/vectors/cba.in and
//! cba.out are, the sealings in them are called too. The exit status is 0 where there is no difference, 1 where
//! there is one, and 2 where an argument or a file is wrong. A run that ends by a signal was where it may not be:
//! after the end of an input, in an input that is refused for being too long, or at NULL.

#![allow(non_snake_case)] // the paper's names

#[path = "../library/mod.rs"]
mod library;
#[path = "../shared/mod.rs"]
mod shared;

use library::run::run;
use library::test::Test;
use shared::expected::{form, sets, Set, MOST_DATA, MOST_TEXT, NONCE, SEAL};
use shared::inputs::{DATA, HUGE, LONGEST};
use std::array::from_fn;

const CALLS: usize = 20_000; // a run has more

fn main() {
    run(
        "seal_differential",
        &SEAL,
        CALLS,
        &[
            small_messages,
            borders,
            long_messages,
            one_by_one,
            |test| refusals(test, true),
            |test| refusals(test, false),
        ],
    )
}

impl Test {
    /// Seals under a new key and nonce, with outputs of several lengths.
    fn seal(&mut self, s: Set, data: usize, text: usize) {
        let [key, nonce, data, text] = [s.key, NONCE, data, text].map(|n| self.random.input(n));
        self.outputs(&SEAL, s, [&key, &nonce, &data, &text]);
    }
}

/// Messages of 0 to 100 bytes, with data of a few bytes and of any length.
fn small_messages(test: &mut Test) {
    for s in sets() {
        for text in 0..=100 {
            let any = test.random.below(MOST_DATA + 1);
            for data in [text % 50, DATA[text % DATA.len()], any] {
                test.seal(s, data, text);
            }
        }
    }
}

/// The lengths at which a form or a block begins or ends, with every length of data, under one key and nonce.
fn borders(test: &mut Test) {
    for s in sets() {
        let [key, nonce] = [s.key, NONCE].map(|n| test.random.bytes(n));
        let after_first = [32 - s.t, 33 - s.t, 0, 1, 15, 16, 17, 31, 32, 33, 47, 48, 49];
        for text in after_first.map(|n| s.l + n) {
            let any = test.random.below(MOST_DATA + 1);
            for data in DATA.into_iter().chain([any]) {
                let [data, text] = [data, text].map(|n| test.random.input(n));
                test.outputs(&SEAL, s, [&key, &nonce, &data, &text]);
            }
        }
        for blocks in [255, 256, 257] {
            for text in [s.l + 16 * blocks, s.l + 16 * blocks + 1] {
                test.seal(s, 16, text);
            }
        }
    }
}

/// Messages of some length, and the longest: of all, in each form that they can have, and with the longest data.
fn long_messages(test: &mut Test) {
    for s in sets() {
        for _ in 0..20 {
            let (data, text) = (test.random.below(MOST_DATA + 1), test.random.below(2000));
            test.seal(s, data, text);
        }
        let longest = |f| (0..=MOST_TEXT).rev().find(|&n| form(s, n) == f);
        let [joined, separate] = [1, 2].map(|f| longest(f).expect("a message of the form"));
        let any = MOST_TEXT - test.random.below(4096);
        for text in [joined, separate, any, MOST_TEXT - 1, MOST_TEXT] {
            let data = test.random.pick(&DATA);
            test.seal(s, data, text);
        }
        test.seal(s, MOST_DATA, MOST_TEXT);
    }
}

/// The numbers of sets, each length by itself, and the limits.
fn one_by_one(test: &mut Test) {
    test.one_by_one(&SEAL, 40);
    for s in sets() {
        for out in MOST_TEXT + s.t..=MOST_TEXT + s.t + 2 {
            let lengths = [s.key, NONCE, 5, MOST_TEXT + 1];
            test.lengths(&SEAL, s.number, lengths, out, true);
        }
    }
}

/// Every choice among the six things that can be wrong, in every set: the first of them is the answer.
fn refusals(test: &mut Test, there: bool) {
    for s in sets() {
        for wrong in 1..64 {
            for _ in 0..3 {
                refusal(test, s, wrong, there);
            }
        }
    }
}

/// Bit i of `wrong` stands for answer i + 1 of those that sealing has.
fn refusal(test: &mut Test, s: Set, wrong: u32, there: bool) {
    let random = &mut test.random;
    let [bad_set, bad_key, bad_nonce, bad_data, bad_text, bad_out] =
        from_fn(|i| wrong >> i & 1 == 1);
    let (number, [key, nonce, data]) = random.lengths(s, [bad_set, bad_key, bad_nonce, bad_data]);
    let text = match bad_text {
        true => random.pick(&[65537, 65538, 65552, 131072, HUGE, HUGE + 5, LONGEST - 70]),
        false => random.pick(&[0, 1, 8, 9, 24, 40, 100, 65535, 65536]),
    };
    let need = text + s.t;
    let out = match bad_out {
        true => random.pick(&[0, 1, s.t - 1, need / 2, need - 1]),
        false => need + random.pick(&[0, 1, 50]),
    };
    let lengths = [key, nonce, data, text];
    let first = SEAL.answers[1 + wrong.trailing_zeros() as usize];
    assert_eq!(SEAL.refusal(number, lengths, out), first, "another refusal");
    test.lengths(&SEAL, number, lengths, out, there);
}
