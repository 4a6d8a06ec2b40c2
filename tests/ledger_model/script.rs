//! The script of the gate. The answers and the totals in it are those of document 01, F-2, F-3 and F-4, by hand; the
//! model must agree.

use super::numbers::{nonce_on, MOST_LOW};
use super::script_borders::borders;
use super::script_carryings::carryings;
use super::script_consoles::consoles;
use super::script_headings::headings;
use super::script_heartbeats::heartbeats;
use super::script_keepings::keepings;
use super::script_order::order;
use super::script_sums::sums;
use super::steps::Script;
use crate::shared::scripts::KEYS_AND_TAGS;

pub fn script() -> Script {
    let mut s = Script::new();
    makings(&mut s);
    every_set(&mut s);
    refusals(&mut s);
    nonces(&mut s);
    s.on_both(whole_capacity);
    s.on_both(hand_made);
    unused_key_bytes(&mut s);
    consoles(&mut s);
    lent(&mut s);
    headings(&mut s);
    keepings(&mut s);
    order(&mut s);
    sums(&mut s);
    heartbeats(&mut s);
    carryings(&mut s);
    borders(&mut s);
    s
}

/// 1 and 2, 1 before 2, and what is left of a ledger after a refused making.
fn makings(s: &mut Script) {
    for set in [0, 11, 12, 255, 256, 257, 65537, u32::MAX] {
        s.make(1, set, 16);
    }
    s.make(1, 11, 15);
    for (set, right) in [(1, 16), (8, 16), (9, 24), (10, 32)] {
        for length in [0, 15, 16, 17, 23, 24, 25, 31, 32, 33] {
            s.make(if length == right { 0 } else { 2 }, set, length);
        }
    }
    s.make(0, 1, 16);
    s.seal((0, 3), 7, [1, 17, 21]);
    s.make(2, 1, 24); // the ledger is gone
    s.seal((1, 0), 8, [1, 17, 21]);
}

/// A fresh ledger takes the least nonce that begins with its number. The charge of 1 data byte and 17 message bytes
/// is 3.
fn every_set(s: &mut Script) {
    for (set, (key, t)) in (1..).zip(KEYS_AND_TAGS) {
        s.make(0, set, key);
        s.seal((7, 0), 0, [1, 17, 17 + t - 1]);
        s.seal((0, 3), 0, [1, 17, 17 + t]);
        s.seal((9, 3), 0, [1, 17, 17 + t]);
        s.seal((0, 6), 1, [1, 17, 17 + t + 3]);
    }
}

/// Each refusal alone, each before the next, and that it leaves the ledger, its nonce too. Set 3 has t = 8.
fn refusals(s: &mut Script) {
    s.make(0, 3, 16);
    s.seal((0, 3), 500, [16, 32, 40]);
    let good = [16, 32, 40];
    for length in [0, 11, 13, 24] {
        s.seal_bytes((3, 3), vec![0xff; length], good);
    }
    s.seal((4, 3), 600, [4097, 32, 40]);
    s.seal((5, 3), 601, [16, 65537, 65545]);
    s.seal((7, 3), 602, [16, 32, 39]);
    s.seal((7, 3), 603, [16, 32, 0]);
    s.seal((9, 3), 500, good);
    s.seal((9, 3), 499, good);
    s.seal_bytes((3, 3), vec![0; 11], [4097, 65537, 0]);
    s.seal((4, 3), 500, [4097, 65537, 0]);
    s.seal((5, 3), 500, [16, 65537, 0]);
    s.seal((7, 3), 500, [16, 32, 39]);
    s.seal((0, 259), 501, [4096, 0, 8]); // 256 blocks; under all that were refused
    s.put(3, 65536, Some(500));
    s.seal((7, 65536), 501, [0, 1, 8]);
    s.seal((9, 65536), 500, [0, 1, 9]);
    s.seal((10, 65536), 501, [0, 1, 9]);
    s.seal((10, 65536), MOST_LOW, [1, 0, 8]);
    s.seal((10, 65536), 501, [0, 0, 8]); // an empty one is charged a block
    s.put(3, 65535, Some(500));
    s.seal((0, 65536), 501, [0, 0, 8]);
}

/// Nonces are 96-bit big-endian numbers: of the ten bytes after the console number the first counts most, the last
/// least.
fn nonces(s: &mut Script) {
    let none = [0, 0, 4];
    s.make(0, 2, 16);
    s.seal((0, 1), 1 << 72, none);
    s.seal((9, 1), (1 << 72) - 1, none); // 00ff..ff
    s.seal((9, 1), 0xff, none);
    s.seal((0, 2), (1 << 72) + 1, none);
    s.seal((9, 2), 1 << 72, none);
    s.seal((0, 3), (1 << 72) + 0x100, none); // the last byte falls, the one before rises
    s.seal((9, 3), (1 << 72) + 0xff, none);
    s.seal((0, 4), (1 << 72) + (1 << 64), none); // only the bytes before the last eight rise
    s.seal((9, 4), (1 << 72) + (1 << 64) - 1, none);
    s.seal((0, 5), 2 << 72, none); // the first of the ten rises, the others fall
    s.seal((0, 6), 0x80 << 72, none); // no sign
    s.seal((9, 6), 0x7f << 72, none);
    s.seal((0, 7), MOST_LOW - 1, none);
    s.seal((0, 8), MOST_LOW, none);
    s.seal((9, 8), MOST_LOW, none); // no nonce of this console is above it
    s.seal((9, 8), 0, none);
    first_two_bytes(s);
}

/// They count most. By hand, as they stay the same along a list: each ledger has a last nonce of another console.
fn first_two_bytes(s: &mut Script) {
    let none = [0, 0, 4];
    let console = s.console;
    let pairs = [
        (0, 1),
        (0, 65535),
        (1, 256),
        (255, 256),
        (258, 513),
        (0x7fff, 0x8000),
        (65534, 65535),
    ];
    for (low, high) in pairs {
        s.console = low;
        s.put_last(2, 7, Some(nonce_on(high, 0)));
        s.seal((9, 7), MOST_LOW, none); // the ten bytes after are above
        s.seal((9, 7), 0, none);
        s.console = high;
        s.put_last(2, 7, Some(nonce_on(low, MOST_LOW)));
        s.seal((0, 8), 0, none); // the ten bytes after are below
        s.seal((9, 8), 0, none);
    }
    s.console = console;
}

/// On set 1, 16 messages of 65,536 bytes make 65,536 blocks, the capacity. An older ledger then takes an empty one,
/// until it is carried over.
fn whole_capacity(s: &mut Script) {
    let empty = s.when_full();
    s.fresh(1);
    for i in 1..=15 {
        s.seal((0, 4096 * i), i as u128, [0, 65536, 65540]);
    }
    s.seal((10, 61440), 50, [1, 65536, 65540]);
    s.seal((0, 65536), 16, [0, 65536, 65540]);
    s.seal((empty, 65536), 17, [0, 0, 4]);
    s.seal((10, 65536), 60, [1, 0, 4]);
    s.seal((10, 65536), 61, [0, 1, 5]);
    s.seal((10, 65536), 62, [4096, 65536, 65540]);
    s.seal((9, 65536), 16, [0, 1, 5]);
    s.seal((empty, 65536), 18, [0, 0, 4]);
    s.carry(0);
    s.seal((10, 65536), 19, [0, 0, 4]);
}

/// Values that no list of sealings leads to.
fn hand_made(s: &mut Script) {
    let no_sets = [0, 11, 256, 257, 65537, 1 << 31 | 1, u32::MAX];
    for (set, total) in no_sets.into_iter().zip([0, 1 << 63, 5, 5, 5, 5, u64::MAX]) {
        let last = (set != 0).then_some(9);
        s.put(set, total, last);
        s.seal((1, total), 10, [1, 17, 40]);
        s.seal((1, total), 9, [1, 17, 0]);
        s.seal_bytes((1, total), vec![], [4097, 65537, 0]);
    }
    for (set, b) in [(1, 16), (2, 32), (5, 48)] {
        let (most, out) = (1 << b, 40);
        s.put(set, u64::MAX, Some(1)); // one block more would be 2^64
        s.seal((10, u64::MAX), 2, [0, 0, out]);
        s.seal((10, u64::MAX), 2, [1, 0, out]);
        for over in [1, 1 << 32, 1 << 63] {
            s.put(set, most + over, Some(1));
            s.seal((10, most + over), 2, [0, 0, out]);
        }
        s.put(set, most, Some(1));
        s.seal((s.when_full(), most), 2, [0, 0, out]);
        s.seal((10, most), 3, [0, 1, out]);
        s.put(set, most - 1, Some(1));
        s.seal((10, most - 1), 2, [1, 1, out]);
        s.seal((10, most - 1), 2, [0, 17, out]);
        s.seal((0, most), 2, [0, 16, out]);
        s.seal((10, most), 3, [1, 0, out]);
        s.put(set, 5, None); // a total with no nonce
        s.seal((0, 8), 0, [1, 17, out]);
        s.seal((9, 8), 0, [1, 17, out]);
        s.put(set, 0, Some(1)); // a nonce with no total
        s.seal((9, 0), 1, [1, 17, out]);
        s.seal((0, 3), 2, [1, 17, out]);
    }
}

/// The hand-made key has no zeros after it: the sealing is the made ledger's, whose key has.
fn unused_key_bytes(s: &mut Script) {
    for (set, length) in [(1, 16), (9, 24), (10, 32)] {
        s.make(0, set, length);
        s.seal((0, 3), 3, [1, 17, 40]);
        s.put(set, 0, None);
        s.seal((0, 3), 3, [1, 17, 40]);
        assert_eq!(s.output(0), s.output(2), "another sealing");
    }
}

/// On a lent ledger: every set, each refusal, hand-made ledgers, consoles, and both kinds of call on one ledger.
fn lent(s: &mut Script) {
    s.lent = &[true];
    s.console = 65534;
    every_set(s);
    refusals(s);
    s.on_both(hand_made);
    consoles(s);
    s.lent = &[false, true, true];
    refusals(s);
    s.console = 513;
    nonces(s);
}
