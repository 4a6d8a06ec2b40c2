//! Each error of a mark, by itself and before those after it, and what is in the buffer then.

use cba::{check_mark, mark, mark_into, Error, MAX_LOG, MAX_MARK, MIN_MARK};

/// In the order of the checks.
const MAKING: [Error; 4] = [Error::Key, Error::Text, Error::Mark, Error::Buffer];
const CHECKING: [Error; 4] = [Error::Key, Error::Text, Error::Mark, Error::False];

const KEYS: [usize; 3] = [16, 24, 32];
const BAD_MARKS: [usize; 9] = [1, 2, 3, 17, 18, 255, 256, 260, 65_544];

/// What is wrong: bit i stands for the error i of a call's order.
#[derive(Clone, Copy)]
struct Wrong(u32);

impl Wrong {
    fn all() -> impl Iterator<Item = Wrong> {
        (1..16).map(Wrong)
    }

    fn is(self, i: u32) -> bool {
        self.0 >> i & 1 == 1
    }

    fn first(self, order: [Error; 4]) -> Error {
        order[self.0.trailing_zeros() as usize]
    }

    /// A key and a log.
    fn inputs(self, key: usize) -> (Vec<u8>, Vec<u8>) {
        let log = if self.is(1) { MAX_LOG + 1 } else { 30 };
        (vec![0xa5; key - self.is(0) as usize], vec![0xa5; log])
    }
}

#[test]
fn making_refuses_the_first_thing_wrong() {
    for wrong in Wrong::all() {
        for (key, bad) in KEYS.into_iter().cycle().zip(BAD_MARKS) {
            let (key, log) = wrong.inputs(key);
            let len = if wrong.is(2) { bad } else { 8 };
            let before = vec![0xa5; len - wrong.is(3) as usize];
            let mut out = before.clone();
            let answer = mark_into(&key, &log, len, &mut out);
            assert_eq!(answer, Err(wrong.first(MAKING)));
            assert!(out == before, "out is as before");
        }
    }
}

/// The true mark is false where its last byte is another.
#[test]
fn checking_refuses_the_first_thing_wrong() {
    for wrong in Wrong::all() {
        for (key, bad) in KEYS.into_iter().cycle().zip(BAD_MARKS) {
            let good = mark(&vec![0xa5; key], &[0xa5; 30], 8).expect("marked");
            let (key, log) = wrong.inputs(key);
            let mut mark = good;
            mark[7] ^= wrong.is(3) as u8;
            if wrong.is(2) {
                mark.resize(bad, 0);
            }
            let answer = check_mark(&key, &log, &mark);
            assert_eq!(answer, Err(wrong.first(CHECKING)));
        }
    }
}

/// Each length of a key, a log and a mark near its limits is taken or refused, in all three calls alike.
#[test]
fn lengths_are_taken_or_refused() {
    let same = |key: usize, log: usize, len: usize, refusal: Result<(), Error>| {
        let (key, log) = (vec![1; key], vec![2; log]);
        let made = mark(&key, &log, len);
        let mut out = vec![0; len];
        assert_eq!(mark_into(&key, &log, len, &mut out), refusal);
        assert_eq!(made, refusal.map(|()| out.clone()));
        assert_eq!(check_mark(&key, &log, &out), refusal);
    };
    let unless = |taken: bool, error| if taken { Ok(()) } else { Err(error) };
    for key in 0..=40 {
        same(key, 5, 8, unless(KEYS.contains(&key), Error::Key));
    }
    for log in [0, 1, MAX_LOG - 1, MAX_LOG, MAX_LOG + 1, 2 * MAX_LOG] {
        same(16, log, 8, unless(log <= MAX_LOG, Error::Text));
    }
    for len in 0..=300 {
        let taken = (MIN_MARK..=MAX_MARK).contains(&len);
        same(16, 5, len, unless(taken, Error::Mark));
    }
}

/// A length is looked at as a whole, and needs no room where it is refused.
#[test]
fn a_huge_length_is_refused() {
    for len in [1 << 8, 1 << 16, 1 << 32, usize::MAX - 15].map(|n: usize| n + 8) {
        assert_eq!(mark(&[1; 16], b"", len), Err(Error::Mark));
        assert_eq!(mark_into(&[1; 16], b"", len, &mut []), Err(Error::Mark));
    }
}

#[test]
fn a_short_buffer_is_refused() {
    for len in MIN_MARK..=MAX_MARK {
        for room in 0..len {
            let mut out = vec![0xa5; room];
            let answer = mark_into(&[1; 16], b"", len, &mut out);
            assert_eq!(answer, Err(Error::Buffer));
            assert_eq!(out, vec![0xa5; room], "out is as before");
        }
    }
}
