//! The part of the script that is about carrying a ledger over, by hand from F-4: it checks 1 alone, and of the ledger
//! it sets only which charge it has.

use super::headings::Sum;
use super::numbers::{nonce_on, MOST_LOW};
use super::steps::Script;

const SUM: Sum = [0x5a; 16];

pub fn carryings(s: &mut Script) {
    s.on_both(every_set);
    s.on_both(any_value);
    s.on_both(other_last);
    made(s);
    refused_makings(s);
    calls_after(s);
}

/// Twice on each set, and on numbers that are a set to who looks at some of the bits.
fn every_set(s: &mut Script) {
    s.console = 258;
    let no_sets = [11, 255, 256, 257, 65537, 1 << 31 | 1, u32::MAX];
    for set in (0..=10).chain(no_sets) {
        s.put(set, 5, Some(9));
        s.carry(answer(set));
        s.carry(answer(set));
    }
}

/// Totals within the capacity, above it and up to 2^64, with a last nonce and with none, and with headings: a kept one,
/// a sum with no flag, and a flag with no sum.
fn any_value(s: &mut Script) {
    let ledgers = [
        (1, 0, 0, None),
        (1, 1, 65535, Some(0)),
        (1, 256, 65536, None),
        (3, 65535, 65537, Some(MOST_LOW)),
        (5, 0, 1 << 48, None),
        (10, 1, 1 << 63, Some(5)),
        (2, 256, u64::MAX, Some(5)),
        (9, 65535, u64::MAX, None),
        (0, 1, 7, Some(5)),
        (11, 256, u64::MAX, None),
    ];
    for (set, console, total, last) in ledgers {
        s.console = console;
        s.put(set, total, last);
        s.hold(0, true, SUM);
        s.hold(3, false, SUM);
        s.hold(7, true, [0; 16]);
        s.carry(answer(set));
        s.carry(answer(set));
    }
}

/// The answer of a carrying.
fn answer(set: u32) -> u32 {
    !(1..=10).contains(&set) as u32
}

/// A last nonce of another console stays.
fn other_last(s: &mut Script) {
    for (own, other) in [(258, 513), (0, 65535), (65535, 0)] {
        s.console = own;
        s.put_last(3, 5, Some(nonce_on(other, 500)));
        s.carry(0);
        s.seal_on(other, (12, 5), 501, [0, 0, 8]);
    }
}

/// A made ledger stays as it is.
fn made(s: &mut Script) {
    s.console = 258;
    for (set, length) in [(1, 16), (9, 24), (10, 32)] {
        s.make(0, set, length);
        s.carry(0);
        s.seal((0, 1), 0, [0, 0, 12]);
        s.carry(0);
        s.seal((0, 2), 1, [0, 0, 12]);
    }
}

/// What they leave has no set, before a carrying and after.
fn refused_makings(s: &mut Script) {
    for (answer, set, length) in [(1, 0, 16), (1, 11, 16), (2, 1, 15), (2, 10, 16)] {
        s.make(answer, set, length);
        s.carry(1);
        s.carry(1);
        s.seal((1, 0), 1, [0, 0, 12]);
    }
}

/// The last nonce still counts and the headings still seal, as on a ledger that is not carried over.
fn calls_after(s: &mut Script) {
    s.on_older(|s| s.fresh(3));
    s.keep((0, 2), 0, 17);
    s.keep((0, 2), 7, 0);
    s.seal((0, 3), 500, [0, 16, 24]);
    let before = s.ledger.clone();
    s.name((0, 4), 0, 501, [16, 24]);
    s.name((0, 5), 7, 502, [16, 24]);
    let outputs = [s.output(1), s.output(0)].map(str::to_string);
    s.put_back(before);
    s.carry(0);
    s.seal((9, 3), 500, [0, 16, 24]);
    s.name((13, 3), 1, 501, [16, 24]);
    s.name((0, 4), 0, 501, [16, 24]);
    s.name((0, 5), 7, 502, [16, 24]);
    assert_eq!(outputs, [s.output(1), s.output(0)], "another sealing");
}
