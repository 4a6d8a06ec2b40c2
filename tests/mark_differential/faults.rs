//! Every choice among the four things that can be wrong in a call: the first of them is the answer.

use crate::lengths::{BAD_MARKS, HUGE_LOGS, LONG_LOGS};
use crate::library::room::{whole, Input};
use crate::shared::inputs::HUGE;
use crate::shared::marks::{Act, ACTS, CODE, KEYS, MOST_LOG};
use crate::test::{as_key, flipped, of_length, Test};

const TRIES: usize = 4; // of each choice, under a key of each length

const BAD_KEYS: [usize; 15] = [
    0, 1, 8, 15, 17, 23, 25, 31, 33, 40, 64, 272, 280, 288, 65552,
];

/// Of marks of bad lengths: how many bytes are there, and the length. Such as may be true, to one who looks at what is
/// there, and such as can be false. The last are not all there.
const BAD_TRUE: [(usize, usize); 8] = [
    (0, 0),
    (1, 1),
    (2, 2),
    (3, 3),
    (0, 17),
    (0, HUGE),
    (8, HUGE + 8),
    (16, usize::MAX),
];
const BAD_FALSE: [(usize, usize); 8] = [
    (1, 1),
    (2, 2),
    (3, 3),
    (17, 17),
    (18, 18),
    (260, 260),
    (8, HUGE + 8),
    (16, HUGE + 16),
];

/// With inputs that are all there, or where some that are too long are not.
pub fn choices(test: &mut Test, there: bool) {
    for act in ACTS {
        for choice in 0..16 {
            let wrong = [0, 1, 2, 3].map(|i| choice >> i & 1 == 1);
            for key in KEYS {
                for _ in 0..TRIES {
                    one_call(test, act, wrong, key, there);
                }
            }
        }
    }
}

/// Place i of `wrong` stands for the i-th refusal of the call.
fn one_call(test: &mut Test, act: Act, wrong: [bool; 4], key: usize, there: bool) {
    let [bad_key, long_log, ..] = wrong;
    let key = match bad_key {
        true => test.random.pick(&BAD_KEYS),
        false => key,
    };
    let key = test.random.input(key);
    let (bytes, len) = log(test, long_log, there);
    let log = Input { bytes: &bytes, len };
    let faults = match act {
        Act::Make => making(test, [whole(&key), log], wrong, there),
        Act::Check => checking(test, [whole(&key), log], wrong, there),
    };
    let refusals = act.refusals().into_iter().zip(wrong);
    let chosen: Vec<u32> = refusals.filter(|r| r.1).map(|r| r.0).collect();
    assert_eq!(faults, chosen, "other faults");
}

/// What is there of a log, and its length.
fn log(test: &mut Test, long: bool, there: bool) -> (Vec<u8>, usize) {
    let random = &mut test.random;
    if long && !there {
        let bytes = random.pick(&[0, 40]);
        return (random.bytes(bytes), random.pick(&HUGE_LOGS));
    }
    let len = match long {
        true => random.pick(&LONG_LOGS),
        false => random.pick(&[0, 1, 15, 16, 17, 40, 100, 600, MOST_LOG - 1, MOST_LOG]),
    };
    (random.input(len), len)
}

fn making(test: &mut Test, [key, log]: [Input; 2], wrong: [bool; 4], there: bool) -> Vec<u32> {
    let [.., bad_mark, short_out] = wrong;
    let random = &mut test.random;
    // No output is shorter than no mark.
    let can_be = |&n: &usize| (n > 0 || !short_out) && (n < HUGE || !there);
    let bad: Vec<usize> = BAD_MARKS.into_iter().filter(can_be).collect();
    let mark = match bad_mark {
        true => random.pick(&bad),
        false => 4 + random.below(13),
    };
    let out = match short_out {
        true => random.pick(&[0, mark / 2, mark - 1]),
        false => mark.saturating_add(random.pick(&[0, 1, 40])),
    };
    test.call(Act::Make, [key, log, of_length(mark)], out)
}

/// A bit is flipped of what is there of a mark that is to be false.
fn checking(test: &mut Test, [key, log]: [Input; 2], wrong: [bool; 4], there: bool) -> Vec<u32> {
    let [.., bad_mark, is_false] = wrong;
    let code = test.code(&as_key(key.bytes), log.bytes);
    let random = &mut test.random;
    let right = 4 + random.below(13);
    let (count, len) = match (bad_mark, is_false) {
        (false, _) => (right, right),
        (true, false) => BAD_TRUE[random.below(if there { 4 } else { 8 })],
        (true, true) => BAD_FALSE[random.below(if there { 6 } else { 8 })],
    };
    let mut bytes = [&code[..], &random.bytes(count.max(CODE) - CODE)].concat();
    bytes.truncate(count);
    if is_false {
        bytes = flipped(&bytes, random.below(8 * count.min(CODE)));
    }
    let mark = Input { bytes: &bytes, len };
    test.call(Act::Check, [key, log, mark], 0)
}
