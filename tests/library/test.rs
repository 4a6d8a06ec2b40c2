//! A call that must give an answer, write a result and change nothing else; calls of all lengths.

use super::room::{whole, Input, Room, ROOM};
use super::show::{show_inputs, show_out};
use crate::shared::expected::{form, set, sets, Act, Set, MOST_DATA, MOST_TEXT, NONCE};
use crate::shared::inputs::{BAD_SETS, HUGE, LONGEST};
use crate::shared::random::Random;
use std::array::from_fn;
use std::collections::BTreeMap;
use std::ptr::{null, null_mut};

const SHOWN: usize = 5; // differences that are printed
const GUARD: usize = 64; // bytes after out, and at most 15 fewer before it

#[derive(Default)]
pub struct Count {
    pub calls: usize,
    pub answers: [usize; 9],
    /// By answer, set and form, where the answer is 0 or 8.
    pub forms: BTreeMap<(u32, u32, usize), usize>,
}

/// Counts the calls, and the differences, of which it prints the first.
pub struct Test {
    pub random: Random,
    rooms: [Room; 4],
    pub counts: BTreeMap<&'static str, Count>,
    pub differences: usize,
}

impl Test {
    pub fn new(seed: u64) -> Test {
        Test {
            random: Random(seed),
            rooms: from_fn(|_| Room::new()),
            counts: BTreeMap::new(),
            differences: 0,
        }
    }

    /// Calls with key, nonce, data and text, which must give the answer, write the result over the first bytes
    /// of out and change no other byte. Returns what is in the place of the result.
    pub fn call(
        &mut self,
        act: &Act,
        number: u32,
        inputs: [Input; 4],
        out: usize,
        (answer, result): (u32, &[u8]),
    ) -> Vec<u8> {
        let head = GUARD - self.random.below(16);
        let there = out.min(ROOM);
        let before = self.random.bytes(head + there + GUARD);
        let mut after = before.clone();
        let places: [*const u8; 4] = from_fn(|i| {
            let Input { bytes, len } = inputs[i];
            // At the fence, or at any alignment.
            let gap = self.random.below(2) * self.random.below(16);
            self.rooms[i].put(bytes, if bytes.len() < len { 0 } else { gap })
        });

        // What has no bytes may be NULL.
        let nulls = self.random.below(2) == 0;
        let given = from_fn(|i| match inputs[i].len {
            0 if nulls => (null(), 0),
            len => (places[i], len),
        });
        let place = match out {
            0 if nulls => null_mut(),
            _ => after[head..].as_mut_ptr(),
        };
        let found = unsafe { act.call(number, given, (place, out)) };

        self.count(act, number, inputs[3].len, answer);
        let result_place = head..head + result.len();
        let mut expected = before.clone();
        expected[result_place.clone()].copy_from_slice(result);
        let kept = (0..4).all(|i| {
            let bytes = inputs[i].bytes;
            bytes == unsafe { std::slice::from_raw_parts(places[i], bytes.len()) }
        });
        if found != answer || after != expected || !kept {
            self.differences += 1;
            if self.differences <= SHOWN {
                let calls = self.counts[act.name].calls;
                eprintln!("{}, call {calls}: set {number}", act.name);
                show_inputs(inputs, out);
                eprintln!("  answer {found}, expected {answer}");
                show_out(&before, &after, &expected, head);
                if !kept {
                    eprintln!("  an input was changed");
                }
            }
        }
        after[result_place].to_vec()
    }

    fn count(&mut self, act: &Act, number: u32, text: usize, answer: u32) {
        let count = self.counts.entry(act.name).or_default();
        count.calls += 1;
        count.answers[answer as usize] += 1;
        if let (0 | 8, Some(s)) = (answer, set(number)) {
            let message = text.min((act.result_len)(s, text));
            let entry = (answer, number, form(s, message));
            *count.forms.entry(entry).or_default() += 1;
        }
    }

    /// Calls with an output of any length, given the reference's answer and result for one that is long enough.
    pub fn with_out(
        &mut self,
        act: &Act,
        number: u32,
        inputs: [&[u8]; 4],
        out: usize,
        (answer, result): (u32, &[u8]),
    ) -> Vec<u8> {
        let refusal = act.refusal(number, inputs.map(|bytes| bytes.len()), out);
        let expected = match refusal {
            0 => (answer, result),
            _ => (refusal, &[][..]),
        };
        self.call(act, number, inputs.map(whole), out, expected)
    }

    /// Calls with outputs that are too short, just long enough and longer. Returns the result.
    pub fn outputs(&mut self, act: &Act, s: Set, inputs: [&[u8]; 4]) -> Vec<u8> {
        let (answer, result) = (act.expected)(s.number, inputs);
        let need = (act.result_len)(s, inputs[3].len());
        assert_eq!(result.len(), need, "the reference's result is no such");
        let mut outs = vec![need, need + 1, need + 2 + self.random.below(80)];
        if need > 0 {
            outs.extend([need - 1, self.random.below(need)]);
        }
        for out in outs {
            self.with_out(act, s.number, inputs, out, (answer, &result));
        }
        result
    }

    /// One call with inputs of any lengths; those that are too long are there or are not.
    pub fn lengths(
        &mut self,
        act: &Act,
        number: u32,
        lengths: [usize; 4],
        out: usize,
        there: bool,
    ) {
        let text = set(number).map_or(MOST_TEXT, |s| *(act.texts)(s).end());
        let long = [32, NONCE, MOST_DATA, text];
        let bytes: [Vec<u8>; 4] = from_fn(|i| match lengths[i] {
            n if n > long[i] && !there => vec![],
            n if n > ROOM => self.random.bytes(64),
            n => self.random.input(n),
        });
        let (answer, result) = match act.refusal(number, lengths, out) {
            0 => (act.expected)(number, from_fn(|i| &bytes[i][..])),
            refusal => (refusal, vec![]),
        };
        let inputs = from_fn(|i| Input {
            bytes: &bytes[i],
            len: lengths[i],
        });
        self.call(act, number, inputs, out, (answer, &result));
    }

    /// The numbers of sets, the lengths of keys and nonces, the limit of data, and outputs that are said to be
    /// very long.
    pub fn one_by_one(&mut self, act: &Act, text: usize) {
        for number in (0..=20).chain(BAD_SETS) {
            for key in [16, 24, 32] {
                self.lengths(act, number, [key, NONCE, 5, text], text + 20, true);
            }
        }
        for s in sets() {
            let need = (act.result_len)(s, text);
            for key in 0..=40 {
                self.lengths(act, s.number, [key, NONCE, 5, text], text + 20, true);
            }
            for nonce in 0..=20 {
                self.lengths(act, s.number, [s.key, nonce, 5, text], text + 20, true);
            }
            for data in [MOST_DATA - 1, MOST_DATA, MOST_DATA + 1] {
                for out in [need - 1, need, need + 1] {
                    self.lengths(act, s.number, [s.key, NONCE, data, text], out, true);
                }
            }
            for out in [HUGE, HUGE + need - 1, LONGEST] {
                self.lengths(act, s.number, [s.key, NONCE, 5, text], out, true);
            }
        }
    }
}
