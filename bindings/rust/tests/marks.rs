//! What is marked passes the check, at every length where a block or a limit is near; what was changed does not.

mod inputs;

use cba::{check_mark, mark, mark_into, Error, MAX_LOG, MAX_MARK, MIN_MARK};
use inputs::{bytes, lengths};

const KEYS: [usize; 3] = [16, 24, 32];

#[test]
fn what_is_marked_passes() {
    for key in KEYS.map(|len| bytes(len, 1)) {
        for log in lengths(MAX_LOG).map(|len| bytes(len, 2)) {
            let code = mark(&key, &log, MAX_MARK).expect("marked");
            for len in MIN_MARK..=MAX_MARK {
                assert_eq!(mark(&key, &log, len).as_deref(), Ok(&code[..len]));
                assert_eq!(check_mark(&key, &log, &code[..len]), Ok(()));
            }
        }
    }
}

/// One bit of key, log or mark is another. With a mark of 4 bytes one such change in 2^32 would pass; the same ones
/// are tried in every run, and none does.
#[test]
fn what_was_changed_is_false() {
    for key_len in KEYS {
        for log_len in [0, 5, 15, 16, 17, 40] {
            for len in MIN_MARK..=MAX_MARK {
                let (key, log) = (bytes(key_len, 3), bytes(log_len, 4));
                let mark = mark(&key, &log, len).expect("marked");
                let good = [key, log, mark];
                for which in 0..3 {
                    for bit in 0..8 * good[which].len() {
                        let mut bad = good.clone();
                        bad[which][bit / 8] ^= 1 << (bit % 8);
                        let checked = check_mark(&bad[0], &bad[1], &bad[2]);
                        assert_eq!(checked, Err(Error::False), "log {log_len}, bit {bit}");
                    }
                }
            }
        }
    }
}

/// A log that lost its end, or that has more, as the bytes with which the code fills a block, has another mark.
#[test]
fn a_longer_or_shorter_log_is_false() {
    for key in KEYS.map(|len| bytes(len, 5)) {
        for len in 1..=70 {
            let log = bytes(len, 6);
            let mark = mark(&key, &log, MAX_MARK).expect("marked");
            let less = log[..len - 1].to_vec();
            for other in [
                less,
                [&log[..], &[0]].concat(),
                [&log[..], &[0x80]].concat(),
            ] {
                assert_eq!(check_mark(&key, &other, &mark), Err(Error::False));
            }
        }
    }
}

#[test]
fn into_a_buffer_is_the_same() {
    for key in KEYS.map(|len| bytes(len, 7)) {
        for len in MIN_MARK..=MAX_MARK {
            for more in [0, 1, 50] {
                let log = bytes(100 + len, 8);
                let mark = mark(&key, &log, len).expect("marked");
                let mut out = vec![0xa5; len + more];
                assert_eq!(mark_into(&key, &log, len, &mut out), Ok(()));
                assert_eq!(out, [&mark[..], &vec![0xa5; more]].concat());
            }
        }
    }
}
