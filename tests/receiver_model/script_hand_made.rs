//! The part of the script that is about receivers that no list of openings leads to, by hand from F-7.

use super::script_offsets::{taken, tried};
use super::steps::Script;

const ALL: u64 = u64::MAX;

pub fn hand_made(s: &mut Script) {
    for set in 1..=10 {
        s.set = set;
        unused_key_bytes(s);
        highest_unmarked(s);
    }
    not_begun(s);
    s.set = 2;
    all_marked(s);
    below_0(s);
    at_the_end(s);
    no_set(s);
    s.set = 1;
}

/// The hand-made key has no zeros after it: what the made receiver opens, it opens too.
fn unused_key_bytes(s: &mut Script) {
    let piece = s.piece_of(3, [1, 17, 20]);
    s.fresh();
    s.deliver(0, &piece);
    s.put(true, 2, 1);
    s.deliver(0, &piece);
    s.holds(3, 0b11);
}

/// It has accepted nothing, whatever its other fields hold; they stay until the first acceptance.
fn not_begun(s: &mut Script) {
    for (highest, marks) in [(1000, ALL), (1000, 0), (0, ALL), (ALL, 1)] {
        for first in [0, 5, 1000, ALL] {
            s.put(false, highest, marks);
            s.probe(8, first);
            s.open_empty(0, first);
            s.holds(first, 1);
            s.open_empty(15, first);
            if first > 0 {
                s.probe(8, first - 1); // no mark comes to it
            }
        }
    }
}

/// The highest was not accepted, and may be.
fn highest_unmarked(s: &mut Script) {
    s.put(true, 1000, 0);
    s.open_empty(15, 936); // 64 below
    s.open_empty(0, 1000);
    s.holds(1000, 1);
    s.open_empty(15, 1000);
    s.put(true, 1000, 0b110);
    s.open_empty(15, 999);
    s.open_empty(15, 998);
    s.open_empty(0, 997);
    s.holds(1000, 0b1110);
    s.open_empty(0, 1000);
    s.holds(1000, 0b1111);
    s.put(true, 1000, 0b10);
    s.open_empty(0, 1001); // no mark comes to the former highest
    s.holds(1001, 0b101);
    s.open_empty(0, 1000);
    s.holds(1001, 0b111);
}

fn all_marked(s: &mut Script) {
    s.put(true, 1000, ALL);
    for n in [1000, 999, 938, 937, 936] {
        s.open_empty(15, n);
    }
    s.open_empty(0, 1001);
    s.holds(1001, ALL);
    s.put(true, 1000, !(1 << 63));
    s.open_empty(15, 936);
    s.open_empty(0, 937); // the last of the 64
    s.holds(1000, ALL);
    s.put(true, 1000, !(1 << 20));
    taken(s, 1000, !(1 << 20));
}

/// Marks below counter 0 stand for nothing, and go with the others.
fn below_0(s: &mut Script) {
    for highest in [0, 5, 62, 63, 64] {
        s.put(true, highest, ALL);
        s.open_empty(15, 0);
        s.open_empty(15, highest);
        s.open_empty(0, highest + 1);
        s.holds(highest + 1, ALL);
    }
    s.put(true, 64, ALL);
    tried(s, 64, ALL);
    for highest in [5, 63, 64] {
        s.put(true, highest, 0);
        taken(s, highest, 0);
    }
    s.put(true, 5, 0xffff_ffff_ffff_ffc0); // nothing but these
    tried(s, 5, 0xffff_ffff_ffff_ffc0);
    s.open_empty(0, 0);
    s.holds(5, 0xffff_ffff_ffff_ffe0);
    s.open_empty(0, 7);
    s.holds(7, 0xffff_ffff_ffff_ff81);
    s.open_empty(15, 0);
    s.open_empty(0, 1);
    s.holds(7, 0xffff_ffff_ffff_ffc1);
    s.put(true, 0, 0x8000_0000_0000_0000);
    s.open_empty(0, 0);
    s.holds(0, 0x8000_0000_0000_0001);
    s.open_empty(0, 1);
    s.holds(1, 0b11);
}

/// At the last counter of all.
fn at_the_end(s: &mut Script) {
    s.put(true, ALL, 0);
    for (answer, n) in [(15, 0), (15, 63), (15, ALL - 64), (0, ALL - 63), (0, ALL)] {
        s.open_empty(answer, n);
    }
    s.holds(ALL, 0x8000_0000_0000_0001);
    s.put(true, ALL, ALL);
    tried(s, ALL, ALL);
    s.open_empty(15, 0);
    s.put(true, ALL - 1, ALL);
    s.open_empty(0, ALL);
    s.holds(ALL, ALL);
    s.put(true, 0, 1);
    s.open_empty(0, ALL);
    s.holds(ALL, 1);
}

/// 1, whatever is asked of it.
fn no_set(s: &mut Script) {
    for set in [0, 11, 257, 65537, 1 << 31 | 1, u32::MAX] {
        for (begun, highest, marks) in [(false, 0, 0), (true, 9, 1)] {
            s.put_set(set, begun, highest, marks);
            s.open(1, 9);
            s.open(1, 10);
            s.deliver(1, &s.piece(10).damaged());
            s.deliver(1, &s.piece(10).changed(Vec::clear));
            s.plain(1, &s.piece(10), 16);
        }
    }
}
