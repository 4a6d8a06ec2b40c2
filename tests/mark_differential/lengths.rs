//! Logs, marks, outputs and keys of every length.

use crate::library::room::{whole, Input};
use crate::shared::inputs::{HUGE, LONGEST};
use crate::shared::marks::{Act, CODE, KEYS, MARKS, MOST_LOG};
use crate::test::{as_key, flipped, of_length, Test};

/// Lengths of no mark. Some are a mark's to one who looks at 8, 16, 32 or 63 bits.
pub const BAD_MARKS: [usize; 17] = [
    0,
    1,
    2,
    3,
    17,
    18,
    32,
    255,
    256,
    260,
    272,
    65544,
    HUGE,
    HUGE + 8,
    HUGE + 16,
    1 << 63 | 8,
    usize::MAX,
];

/// Lengths of logs that are too long: such as are there, and such as are not.
pub const LONG_LOGS: [usize; 5] = [MOST_LOG + 1, MOST_LOG + 2, MOST_LOG + 16, 131072, 131112];
pub const HUGE_LOGS: [usize; 6] = [
    MOST_LOG + 1,
    HUGE,
    HUGE + 5,
    LONGEST,
    LONGEST + 1,
    usize::MAX,
];

/// Logs of 0 to 600 bytes, some longer, and the longest: the whole code and a shorter mark, made and checked.
pub fn logs(test: &mut Test) {
    let longer = [1023, 1024, 1025, 4079, 4080, 4081, 4095, 4096, 4097, 32768];
    let longest = [65519, 65520, 65521, MOST_LOG - 1, MOST_LOG];
    for key in KEYS {
        for log in (0..=600).chain(longer).chain(longest) {
            let [key, log] = [key, log].map(|n| test.random.input(n));
            let code = test.code(&key, &log);
            for mark in [CODE, 4 + test.random.below(12)] {
                let more = test.random.pick(&[0, 0, 1, 40]);
                test.make(&key, &log, mark, mark + more);
                test.check(&key, &log, &code[..mark]);
            }
        }
    }
}

/// Marks of every length, right and wrong, as far as they can be there.
pub fn marks(test: &mut Test) {
    let bad = BAD_MARKS.into_iter().filter(|&n| n < HUGE);
    for mark in MARKS.chain(bad) {
        marks_of(test, mark, |test, key, log, code| {
            let more = test.random.bytes(mark.max(CODE) - CODE);
            let bytes = &[code, &more].concat()[..mark];
            test.check(key, log, bytes);
            let bits = [0, 7, 4 * mark, (8 * mark).saturating_sub(1)];
            for bit in bits.into_iter().filter(|&bit| bit < 8 * mark) {
                test.check(key, log, &flipped(bytes, bit));
            }
        });
    }
}

/// Marks that are too long, of which the start of a code is there, as many bytes as their low bits say, or nothing.
pub fn huge_marks(test: &mut Test) {
    for len in BAD_MARKS.into_iter().filter(|&n| n > CODE) {
        marks_of(test, len, |test, key, log, code| {
            for bytes in [&code[..CODE.min(len % 32)], &[]] {
                let mark = Input { bytes, len };
                test.call(Act::Check, [whole(key), whole(log), mark], 0);
            }
        });
    }
}

/// Marks of one length made, with outputs that are longer, just long enough, too short and empty; and what else is done
/// with key, log and code.
fn marks_of(test: &mut Test, mark: usize, then: impl Fn(&mut Test, &[u8], &[u8], &[u8])) {
    for key in KEYS {
        for log in [0, 1, 15, 16, 17, 32, 40] {
            let [key, log] = [key, log].map(|n| test.random.input(n));
            for more in [0, 1, 40] {
                test.make(&key, &log, mark, mark.saturating_add(more));
            }
            for out in [mark.saturating_sub(1), 0, mark / 2, 16] {
                test.make(&key, &log, mark, out);
            }
            let code = test.code(&key, &log);
            then(test, &key, &log, &code);
        }
    }
}

/// Outputs that are said to be very long.
pub fn outputs(test: &mut Test) {
    for key in KEYS {
        for mark in MARKS {
            let [key, log] = [key, 21].map(|n| test.random.input(n));
            for out in [255, 256, 65535, HUGE, HUGE + mark - 1, LONGEST] {
                test.make(&key, &log, mark, out);
            }
        }
    }
}

/// Keys of 0 to 40 bytes, and longer ones.
pub fn keys(test: &mut Test) {
    let longer = [
        48, 64, 128, 192, 255, 256, 272, 280, 288, 65552, 65560, 65568,
    ];
    for key in (0..=40).chain(longer) {
        let key = test.random.bytes(key);
        with_key(test, whole(&key));
    }
}

/// Keys that are too long, of which as many bytes are there as their low bits say, or none.
pub fn huge_keys(test: &mut Test) {
    let long = [33, 40, 272, 65552, HUGE + 16, HUGE + 24, HUGE + 32];
    for len in long.into_iter().chain([LONGEST, 1 << 63 | 16, usize::MAX]) {
        let bytes = test.random.bytes(len % 64);
        with_key(test, Input { bytes: &bytes, len });
        with_key(test, of_length(len));
    }
}

/// Marks made and checked: true for what is there of the key, and false.
fn with_key(test: &mut Test, key: Input) {
    for log in [0, 16, 21] {
        let log = test.random.input(log);
        let code = test.code(&as_key(key.bytes), &log);
        for mark in [4, 11, CODE] {
            let inputs = |mark| [key, whole(&log), mark];
            test.call(Act::Make, inputs(of_length(mark)), mark);
            let random = test.random.bytes(mark);
            for bytes in [&code[..mark], &random] {
                test.call(Act::Check, inputs(whole(bytes)), 0);
            }
        }
    }
}

/// Logs that are too long.
pub fn long_logs(test: &mut Test) {
    for key in KEYS {
        for log in LONG_LOGS {
            let [key, log] = [key, log].map(|n| test.random.input(n));
            with_log(test, &key, whole(&log));
        }
    }
}

/// Logs that are too long, of which a little is there, or nothing.
pub fn huge_logs(test: &mut Test) {
    for key in KEYS {
        for len in HUGE_LOGS {
            let [key, bytes] = [key, 40].map(|n| test.random.input(n));
            with_log(test, &key, Input { bytes: &bytes, len });
            with_log(test, &key, of_length(len));
        }
    }
}

/// Marks made and checked: true for what is there of the log, and false.
fn with_log(test: &mut Test, key: &[u8], log: Input) {
    let code = test.code(key, log.bytes);
    let inputs = |mark| [whole(key), log, mark];
    for out in [7, 8, 48] {
        test.call(Act::Make, inputs(of_length(8)), out);
    }
    let random = test.random.bytes(CODE);
    for bytes in [&code[..4], &code, &random] {
        test.call(Act::Check, inputs(whole(bytes)), 0);
    }
}
