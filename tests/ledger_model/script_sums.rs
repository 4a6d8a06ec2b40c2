//! The part of the script that is about hand-made ledgers with kept headings: values that no list of calls leads to.

use super::headings::Sum;
use super::steps::Script;

pub fn sums(s: &mut Script) {
    s.console = 65535;
    flags(s);
    for (set, t) in [(1, 4), (3, 8), (6, 12)] {
        cut(s, set, t);
    }
    held_again(s);
    unused_key_bytes(s);
    no_sets(s);
    s.on_both(totals);
}

/// Sixteen bytes that are all different.
fn sum(first: u8) -> Sum {
    std::array::from_fn(|i| first + i as u8)
}

/// A sum with no flag is nothing kept, and stays; a flag with any sum is something kept.
fn flags(s: &mut Script) {
    s.put(3, 5, None);
    for name in 0..8 {
        s.hold(name, name % 2 == 1, sum(16 * name));
    }
    for name in 0..8 {
        let (answer, total) = match name % 2 {
            0 => (13, 5 + name / 2),
            _ => (0, 6 + name / 2),
        };
        s.name((answer, total), name as u32, name as u128, [16, 24]);
    }
    s.seal((0, 11), 8, [16, 16, 24]);
    s.keep((4, 11), 4, 4097);
    s.name((13, 11), 4, 9, [16, 24]);
    s.keep((0, 12), 4, 16);
    s.name((0, 13), 4, 9, [16, 24]);
    s.name((13, 13), 2, 10, [16, 24]);
    s.put(3, 5, None); // nothing is left
    s.name((13, 5), 1, 11, [16, 24]);
}

/// Only the first t bytes of a sum count in a sealing. All of them 0 are those of empty data.
fn cut(s: &mut Script, set: u32, t: usize) {
    let lengths = [17, 17 + t];
    let mut after = [0; 16];
    after[t..].fill(0xff);
    let mut in_last = [0; 16];
    in_last[t - 1] = 1;
    s.put(set, 0, None);
    s.seal((0, 2), 1, [0, 17, 17 + t]);
    s.put(set, 0, None);
    s.keep((0, 1), 7, 0);
    s.name((0, 3), 7, 1, lengths);
    assert_eq!(s.output(0), s.output(3), "another sealing");
    let empty = s.output(0).to_string();
    for (sum, same) in [([0; 16], true), (after, true), (in_last, false)] {
        s.put(set, 0, None);
        s.hold(7, true, sum);
        s.name((0, 2), 7, 1, lengths);
        assert_eq!(s.output(0) == empty, same, "another sealing");
    }
    s.hold(7, true, [0xff; 16]);
    s.name((0, 4), 7, 2, lengths);
}

/// Over what a keeping left, and a keeping over what was held.
fn held_again(s: &mut Script) {
    s.make(0, 3, 16);
    s.keep((0, 1), 1, 16);
    s.keep((0, 2), 2, 16);
    s.hold(1, true, sum(100));
    s.name((0, 3), 1, 1, [16, 24]);
    s.name((0, 4), 2, 2, [16, 24]);
    s.hold(1, false, sum(100));
    s.name((13, 4), 1, 3, [16, 24]);
    s.hold(2, false, [0; 16]);
    s.name((13, 4), 2, 3, [16, 24]);
    s.keep((0, 5), 1, 16);
    s.name((0, 6), 1, 3, [16, 24]);
    s.name((13, 6), 2, 4, [16, 24]);
}

/// The hand-made key has no zeros after it: what is kept and sealed is the made ledger's, whose key has.
fn unused_key_bytes(s: &mut Script) {
    for (set, length) in [(1, 16), (9, 24), (10, 32)] {
        s.make(0, set, length);
        s.keep((0, 2), 6, 17);
        s.name((0, 3), 6, 1, [16, 40]);
        let made = s.ledger.headings.clone();
        s.put(set, 0, None);
        s.keep((0, 2), 6, 17);
        s.name((0, 3), 6, 1, [16, 40]);
        assert_eq!(s.ledger.headings, made, "another sum");
        assert_eq!(s.output(0), s.output(3), "another sealing");
    }
}

/// 1 before all else, and what is held stays.
fn no_sets(s: &mut Script) {
    for (set, total) in [(0, 0), (11, 1 << 63), (257, 5), (u32::MAX, u64::MAX)] {
        s.put(set, total, (set != 0).then_some(9));
        s.hold(0, true, sum(7));
        s.hold(7, false, sum(8));
        s.keep((1, total), 0, 16);
        s.keep((1, total), 8, 4097);
        s.name((1, total), 0, 10, [17, 40]);
        s.name((1, total), 7, 9, [17, 40]);
        s.name_bytes((1, total), 8, vec![], [65537, 0]);
    }
}

/// At the capacity, above it and at 2^64, where the sum for "spent" does not wrap.
fn totals(s: &mut Script) {
    let empty = s.when_full();
    for (set, b) in [(1, 16), (2, 32), (5, 48)] {
        let most = 1 << b;
        for total in [u64::MAX, most + 1, most + (1 << 63)] {
            s.put(set, total, Some(1));
            s.hold(3, true, sum(9));
            for length in [0, 16] {
                s.keep((10, total), 3, length);
                s.name((10, total), 3, 2, [length, length + 12]);
            }
        }
        s.put(set, most, Some(1));
        s.hold(3, true, sum(9));
        s.keep((10, most), 3, 1);
        s.keep((empty, most), 3, 0);
        s.name((10, most), 3, 2, [1, 13]);
        s.name((empty, most), 3, 2, [0, 12]);
        s.put(set, most - 2, Some(1));
        s.keep((10, most - 2), 3, 33);
        s.keep((0, most - 1), 3, 16);
        s.keep((10, most - 1), 3, 17);
        s.name((10, most - 1), 3, 2, [17, 40]);
        s.name((0, most), 3, 2, [16, 40]);
        s.keep((10, most), 3, 1);
        s.put(set, most - 257, Some(1));
        s.keep((0, most - 1), 3, 4096);
        s.keep((10, most - 1), 3, 4096);
        s.keep((0, most), 3, 1);
        s.keep((empty, most), 3, 0);
    }
}
