//! Holds cba_open to its table of answers, to cba_seal and to the reference, the mode written a second time.
//!
//!     target/tests/open_differential [SEED] [FILE_IN FILE_OUT]
//!
//! A run prints its seed, and the same seed makes the same run. With two files, as tests/vectors/cba.in and
//! cba.out are, the openings in them are called too. The exit status is 0 where there is no difference, 1 where
//! there is one, and 2 where an argument or a file is wrong. A run that ends by a signal was where it may not be:
//! after the end of an input, in an input that is refused for being too long, or at NULL.

#![allow(non_snake_case)] // the paper's names

#[path = "../library/mod.rs"]
mod library;
#[path = "../shared/mod.rs"]
mod shared;

use library::run::run;
use library::test::Test;
use shared::expected::{form, reference, sets, Set, MOST_DATA, MOST_TEXT, NONCE, OPEN, SEAL};
use shared::inputs::{DATA, HUGE, LONGEST};
use shared::mode::aes::Aes;
use shared::mode::bytes::{to_bits, to_bytes};
use shared::mode::cba::{cat, i_8, one, rotr, zero, Bits, Blockcipher, F, MSB};
use std::array::from_fn;

const CALLS: usize = 50_000; // a run has more

fn main() {
    run(
        "open_differential",
        &OPEN,
        CALLS,
        &[
            round_trips,
            small_texts,
            flipped_bits,
            cut_or_extended,
            in_another_place,
            tag_of_the_joined_form,
            many_blocks,
            longest,
            one_by_one,
            |test| refusals(test, true),
            |test| refusals(test, false),
        ],
    )
}

/// Key, nonce, data and a sealing under them.
#[derive(Clone)]
struct Sealed {
    s: Set,
    inputs: [Vec<u8>; 4],
}

impl Sealed {
    /// By the reference, with all but the lengths by chance.
    fn new(test: &mut Test, s: Set, data: usize, message: usize) -> Sealed {
        let mut inputs = [s.key, NONCE, data, message].map(|n| test.random.input(n));
        let (_, sealing) = (SEAL.expected)(s.number, from_fn(|i| &inputs[i][..]));
        inputs[3] = sealing;
        Sealed { s, inputs }
    }

    fn slices(&self) -> [&[u8]; 4] {
        from_fn(|i| &self.inputs[i][..])
    }

    /// The same with another text.
    fn text(&self, text: Vec<u8>) -> Sealed {
        let mut other = self.clone();
        other.inputs[3] = text;
        other
    }

    /// The same with a bit of an input flipped.
    fn flipped(&self, input: usize, bit: usize) -> Sealed {
        let mut other = self.clone();
        other.inputs[input][bit / 8] ^= 0x80 >> (bit % 8);
        other
    }
}

impl Test {
    /// Opens, mostly with an output that is long enough.
    fn open(&mut self, Sealed { s, inputs }: &Sealed) {
        let inputs = from_fn(|i| &inputs[i][..]);
        let text = inputs[3].len();
        let need = text.saturating_sub(s.t);
        let any = self.random.below(80);
        let out = match self.random.below(8) {
            0 => need.saturating_sub(1),
            1 | 2 => need + any,
            3 => need + 1,
            _ => need,
        };
        // The reference is not asked where a length refuses.
        let (answer, result) = match OPEN.refusal(s.number, inputs.map(|bytes| bytes.len()), out) {
            0 => (OPEN.expected)(s.number, inputs),
            refusal => (refusal, vec![]),
        };
        self.with_out(&OPEN, s.number, inputs, out, (answer, &result));
    }
}

/// Lengths of messages at which a form or a block begins or ends, up to three blocks.
fn borders(s: Set) -> Vec<usize> {
    let after_first = [
        1,
        15,
        16,
        17,
        32 - s.t,
        33 - s.t,
        31,
        32,
        33,
        48 - s.t,
        49 - s.t,
    ];
    let mut lengths = vec![0, 1, s.l];
    lengths.extend(after_first.map(|n| s.l + n));
    lengths.sort();
    lengths.dedup();
    lengths
}

/// Messages of 0 to 600 bytes, sealed and opened by the library.
fn round_trips(test: &mut Test) {
    for s in sets() {
        for n in 0..=600 {
            let data = DATA[n % DATA.len()];
            let [key, nonce, data, message] = [s.key, NONCE, data, n].map(|n| test.random.input(n));
            let inputs = [&key[..], &nonce, &data, &message];
            let (answer, sealing) = (SEAL.expected)(s.number, inputs);
            let sealed = test.with_out(&SEAL, s.number, inputs, n + s.t, (answer, &sealing));
            let out = n + test.random.pick(&[0, 0, 1, 20]);
            let inputs = [&key[..], &nonce, &data, &sealed];
            test.with_out(&OPEN, s.number, inputs, out, (0, &message));
        }
    }
}

/// Texts of 0 to 120 bytes: sealings, where they are long enough to be one, and others. Outputs of many lengths.
fn small_texts(test: &mut Test) {
    for s in sets() {
        for text in 0..=120 {
            let data = test.random.pick(&[0, 1, 15, 16, 17, text, 40]);
            if text < s.t {
                for out in [0, 1, s.t - text, 20, HUGE - s.t + text, LONGEST] {
                    let lengths = [s.key, NONCE, data, text];
                    test.lengths(&OPEN, s.number, lengths, out, true);
                }
                continue;
            }
            let sealed = Sealed::new(test, s, data, text - s.t);
            let other = sealed.text(test.random.input(text));
            test.outputs(&OPEN, s, sealed.slices());
            test.outputs(&OPEN, s, other.slices());
        }
    }
}

/// Every bit of a sealing, at every border; every bit of key, nonce and data, once in each form.
fn flipped_bits(test: &mut Test) {
    for s in sets() {
        for message in borders(s) {
            let data = test.random.pick(&[0, 5, 16, 40]);
            let sealed = Sealed::new(test, s, data, message);
            for bit in 0..8 * sealed.inputs[3].len() {
                test.open(&sealed.flipped(3, bit));
            }
        }
        for message in [s.l, s.l + 17, s.l + 32] {
            let sealed = Sealed::new(test, s, 21, message);
            for input in 0..3 {
                for bit in 0..8 * sealed.inputs[input].len() {
                    test.open(&sealed.flipped(input, bit));
                }
            }
        }
    }
}

/// A sealing without its last bytes or its first, and with bytes before it or after it.
fn cut_or_extended(test: &mut Test) {
    for s in sets() {
        for message in borders(s) {
            let data = test.random.pick(&[0, 5, 16, 40]);
            let sealed = Sealed::new(test, s, data, message);
            let text = &sealed.inputs[3];
            for n in 0..text.len() {
                test.open(&sealed.text(text[..n].to_vec()));
                test.open(&sealed.text(text[n + 1..].to_vec()));
            }
            for n in 1..=20 {
                let more = test.random.input(n);
                test.open(&sealed.text([&more[..], text].concat()));
                test.open(&sealed.text([text, &more[..]].concat()));
                test.open(&sealed.text([&text[..], &vec![0; n]].concat()));
            }
        }
    }
}

/// A sealing under another key, nonce or set, with other data, with two blocks exchanged, and with the end of
/// another sealing.
fn in_another_place(test: &mut Test) {
    for s in sets() {
        for message in borders(s).into_iter().chain([s.l + 70, s.l + 80]) {
            let data = test.random.pick(&[0, 5, 15, 16, 17, 32, 40]);
            let sealed = Sealed::new(test, s, data, message);
            for other_set in sets() {
                let s = other_set;
                let inputs = sealed.inputs.clone();
                test.open(&Sealed { s, inputs });
            }
            let other = Sealed::new(test, s, data, message);
            for input in 0..4 {
                let mut mixed = sealed.clone();
                mixed.inputs[input] = other.inputs[input].clone();
                test.open(&mixed);
            }
            for data in other_data(&sealed.inputs[2]) {
                let mut mixed = sealed.clone();
                mixed.inputs[2] = data;
                test.open(&mixed);
            }
            let text = &sealed.inputs[3];
            let last = text.len() - s.t;
            test.open(&sealed.text([&text[..last], &other.inputs[3][last..]].concat()));
            if text.len() >= s.l + 32 {
                let (first, rest) = text.split_at(s.l);
                test.open(&sealed.text([first, &rest[16..32], &rest[..16], &rest[32..]].concat()));
            }
        }
    }
}

/// Data that one who pads or cuts amiss takes for these.
fn other_data(data: &[u8]) -> [Vec<u8>; 7] {
    let short = 16 - data.len() % 16;
    let mut padded = data.to_vec();
    padded.push(0x80);
    padded.resize(data.len() + short, 0);
    [
        padded,
        [data, &[0]].concat(),
        [data, &vec![0; short]].concat(),
        data[..data.len().saturating_sub(1)].to_vec(),
        vec![0; data.len()],
        vec![0; 16],
        vec![],
    ]
}

/// In the joined form a flipped bit of C1 to Cm changes all of T', and one that compares a part of it finds no
/// mistake that it overlooks. So the data are changed, to data whose TA, and with it T, is another in one bit.
fn tag_of_the_joined_form(test: &mut Test) {
    for s in sets() {
        for message in [s.l + 17, s.l + 32 - s.t, s.l + 48 - s.t] {
            let [key, nonce, message] = [s.key, NONCE, message].map(|n| test.random.bytes(n));
            let mut sum = test.random.bytes(16);
            let data = block_with_sum(s, &key, &sum);
            let (_, text) = (SEAL.expected)(s.number, [&key, &nonce, &data, &message]);
            test.outputs(&OPEN, s, [&key, &nonce, &data, &text]);
            for bit in 0..8 * s.t {
                sum[bit / 8] ^= 0x80 >> (bit % 8);
                let data = block_with_sum(s, &key, &sum);
                test.outputs(&OPEN, s, [&key, &nonce, &data, &text]);
                sum[bit / 8] ^= 0x80 >> (bit % 8);
            }
        }
    }
}

/// The block of data over which H has this sum.
fn block_with_sum(s: Set, key: &[u8], sum: &[u8]) -> Vec<u8> {
    let (p, K, S) = (reference(s.number), Aes::new(key), to_bits(sum));
    let L = K.E(cat![i_8(p.tau), i_8(p.b), zero(p.n - 16)]);
    let Delta = F(2, 2, rotr(cat![MSB(p.n - 2, L), one(2)], 1));
    let A_1 = K.D(&S) ^ F(2, 2, Delta);
    assert_eq!(p.H(&K, &A_1), MSB(p.tau, S), "another sum");
    to_bytes(&A_1)
}

/// Texts about 4,096 bytes, on both sides of each border, and random ones up to 2,000.
fn many_blocks(test: &mut Test) {
    for s in sets() {
        for blocks in [255, 256, 257] {
            for last in [0, 1, 15, 16 - s.t, 17 - s.t] {
                open_and_damage(test, s, 16, s.l + 16 * blocks + last);
            }
        }
        for _ in 0..20 {
            let data = test.random.below(MOST_DATA + 1);
            let message = 1 + test.random.below(2000);
            open_and_damage(test, s, data, message);
        }
    }
}

/// The longest messages: of all, in each form that they can have, and with the longest data.
fn longest(test: &mut Test) {
    for s in sets() {
        let longest = |f| (0..=MOST_TEXT).rev().find(|&n| form(s, n) == f);
        let [joined, separate] = [1, 2].map(|f| longest(f).expect("a message of the form"));
        for message in [joined, separate, MOST_TEXT - 1, MOST_TEXT] {
            let data = test.random.pick(&DATA);
            open_and_damage(test, s, data, message);
        }
        open_and_damage(test, s, MOST_DATA, MOST_TEXT);
    }
}

/// A sealing, and the same with a bit flipped at the start, in the middle, near the end and in the last byte.
fn open_and_damage(test: &mut Test, s: Set, data: usize, message: usize) {
    let sealed = Sealed::new(test, s, data, message);
    test.outputs(&OPEN, s, sealed.slices());
    let bits = 8 * sealed.inputs[3].len();
    let places = [bits.min(64), bits, bits.min(256), bits.min(8)];
    for (i, n) in places.into_iter().enumerate() {
        let bit = test.random.below(n);
        test.open(&sealed.flipped(3, if i < 2 { bit } else { bits - 1 - bit }));
    }
}

/// The numbers of sets, each length by itself, and the limits.
fn one_by_one(test: &mut Test) {
    test.one_by_one(&OPEN, 40);
    for s in sets() {
        for text in MOST_TEXT - 1..=MOST_TEXT + 14 {
            for out in [text - s.t - 1, text - s.t, text] {
                let lengths = [s.key, NONCE, 5, text];
                test.lengths(&OPEN, s.number, lengths, out, true);
            }
        }
        // Where all is of a length that can be, a sealing is opened and not refused.
        let sealed = Sealed::new(test, s, MOST_DATA, 40);
        test.outputs(&OPEN, s, sealed.slices());
        for out in [HUGE, HUGE + 39, LONGEST] {
            let expected = (OPEN.expected)(s.number, sealed.slices());
            let expected = (expected.0, &expected.1[..]);
            test.with_out(&OPEN, s.number, sealed.slices(), out, expected);
        }
    }
}

#[derive(Clone, Copy, PartialEq)]
enum Text {
    Sealed,
    False,
    Long,
    Stub,
}

/// Every choice among the things that can be wrong and can meet, in every set: the first of them is the answer.
/// A text under t bytes needs no output, and is no sealing; nor is one that is too long or has no such key.
fn refusals(test: &mut Test, there: bool) {
    for s in sets() {
        for wrong in 0..16 {
            for text in [Text::Sealed, Text::False, Text::Long, Text::Stub] {
                for short_out in [false, true] {
                    let cannot_be = match text {
                        Text::Sealed => wrong != 0,
                        Text::Stub => short_out,
                        _ => false,
                    };
                    for _ in 0..if cannot_be { 0 } else { 3 } {
                        refusal(test, s, wrong, text, short_out, there);
                    }
                }
            }
        }
    }
}

/// Bit i of `wrong` stands for answer i + 1.
fn refusal(test: &mut Test, s: Set, wrong: u32, text: Text, short_out: bool, there: bool) {
    let random = &mut test.random;
    let (number, [key, nonce, data]) = random.lengths(s, from_fn(|i| wrong >> i & 1 == 1));
    let most = MOST_TEXT + s.t;
    let len = match text {
        Text::Long => most + random.pick(&[1, 2, 16, 65536, HUGE - most, HUGE, LONGEST - most]),
        Text::Stub => random.pick(&[0, 1, s.t / 2, s.t - 1]),
        _ => s.t + random.pick(&[1, 8, 9, 24, 40, 100, 65535, 65536]),
    };
    let need = len.saturating_sub(s.t);
    let out = match short_out {
        true => random.pick(&[0, need / 2, need - 1]),
        false => need + random.pick(&[0, 1, 50]),
    };
    let lengths = [key, nonce, data, len];
    let first = match wrong {
        0 => match text {
            Text::Long => 5,
            Text::Stub => 6,
            _ if short_out => 7,
            Text::False => 8,
            Text::Sealed => 0,
        },
        _ => 1 + wrong.trailing_zeros(),
    };
    let by_lengths = if first == 8 { 0 } else { first };
    assert_eq!(OPEN.refusal(number, lengths, out), by_lengths, "another");
    if text != Text::Sealed {
        return test.lengths(&OPEN, number, lengths, out, there);
    }
    let sealed = Sealed::new(test, s, data, need);
    let (answer, message) = (OPEN.expected)(s.number, sealed.slices());
    assert_eq!(answer, 0, "the reference opens no sealing of its own");
    test.with_out(&OPEN, s.number, sealed.slices(), out, (0, &message));
}
