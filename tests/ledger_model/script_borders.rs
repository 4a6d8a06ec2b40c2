//! The part of the script that is about what just fits and what does not, on older and newer ledgers of each set, by
//! hand from F-4.

use super::steps::Script;
use crate::shared::scripts::KEYS_AND_TAGS;

const EXPONENTS: [u32; 10] = [16, 32, 16, 32, 48, 16, 32, 48, 32, 48]; // b of each set

const LENGTHS: [usize; 4] = [0, 1, 16, 17];
const OLDER: [u64; 4] = [0, 1, 1, 2]; // what they are charged
const NEWER: [u64; 4] = [1, 1, 1, 2];

const NAME: u32 = 3;

/// A set, the length of its tags, and 2^b.
#[derive(Clone, Copy)]
struct Set(u32, usize, u64);

pub fn borders(s: &mut Script) {
    s.console = 513;
    s.lent = &[false, true];
    let sets = KEYS_AND_TAGS.into_iter().zip(EXPONENTS);
    for (number, ((_, t), b)) in (1..).zip(sets) {
        let set = Set(number, t, 1 << b);
        s.on_both(|s| totals(s, set));
        carried_when_full(s, set);
        carried_one_before(s, set);
    }
}

/// Two blocks are left, one, none, and less than none.
fn totals(s: &mut Script, set: Set) {
    let Set(_, _, most) = set;
    let charges = if s.heartbeats { NEWER } else { OLDER };
    for total in [most - 2, most - 1, most, most + 1, u64::MAX] {
        for (length, charge) in LENGTHS.into_iter().zip(charges) {
            let fits = total <= most && charge <= most - total;
            let expected = if fits {
                (0, total + charge)
            } else {
                (10, total)
            };
            each_call(s, set, total, expected, length);
        }
    }
}

/// A message, data that are kept, and a message by name, of this length, each on a ledger with this total.
fn each_call(s: &mut Script, set: Set, total: u64, expected: (u32, u64), length: usize) {
    let Set(_, t, _) = set;
    put(s, set, total);
    s.seal(expected, low(s), [0, length, length + t]);
    put(s, set, total);
    s.keep(expected, NAME, length);
    put(s, set, total);
    if !s.ledger.headings[NAME as usize].kept() {
        s.hold(NAME as u8, true, [0x77; 16]);
    }
    s.name(expected, NAME, low(s), [length, length + t]);
}

/// A number that rises along the script, for nonces.
fn low(s: &Script) -> u128 {
    s.records.len() as u128
}

/// A ledger with this total, made again only where the one before is another.
fn put(s: &mut Script, Set(set, ..): Set, total: u64) {
    let there = (s.ledger.set, s.ledger.total, s.ledger.heartbeats);
    if there != (set, total, s.heartbeats) {
        s.put(set, total, Some(1));
    }
}

/// Each kind of empty call, with the answer and the total after it.
fn empty_calls(s: &mut Script, t: usize, expected: [(u32, u64); 3]) {
    s.seal(expected[0], low(s), [0, 0, t]);
    s.keep(expected[1], NAME, 0);
    s.name(expected[2], NAME, low(s), [0, t]);
}

/// A full older ledger takes what is empty until it is carried over.
fn carried_when_full(s: &mut Script, set: Set) {
    let Set(_, t, most) = set;
    s.on_older(|s| put(s, set, most));
    empty_calls(s, t, [(0, most); 3]);
    s.carry(0);
    empty_calls(s, t, [(10, most); 3]);
    s.carry(0);
    empty_calls(s, t, [(10, most); 3]);
}

/// With one block left it is the first empty call after the carrying that fills it.
fn carried_one_before(s: &mut Script, set: Set) {
    let Set(_, t, most) = set;
    s.on_older(|s| put(s, set, most - 1));
    empty_calls(s, t, [(0, most - 1); 3]);
    s.carry(0);
    empty_calls(s, t, [(0, most), (10, most), (10, most)]);
}
