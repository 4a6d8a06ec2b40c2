//! The part of the script that is about the marks that stay where the highest rises, by hand from F-7.

use super::script_offsets::{taken, tried};
use super::steps::Script;

const FIRST: u64 = 1000;
const ALL: u64 = u64::MAX;
const EVEN: u64 = 0x5555_5555_5555_5555; // the highest, and every second below it
const ODD: u64 = 0xaaaa_aaaa_aaaa_aaaa; // the others
const LAST: u64 = 1 << 63; // the last of the 64 alone

/// Marks, how far the highest rises, and the marks after it.
const SHIFTS: [(u64, u64, u64); 29] = [
    (ALL, 1, ALL),
    (ALL, 2, 0xffff_ffff_ffff_fffd),
    (ALL, 8, 0xffff_ffff_ffff_ff01),
    (ALL, 32, 0xffff_ffff_0000_0001),
    (ALL, 62, 0xc000_0000_0000_0001),
    (ALL, 63, 0x8000_0000_0000_0001),
    (ALL, 64, 1),
    (ALL, 65, 1),
    (ALL, 127, 1),
    (ALL, 128, 1),
    (ALL, 1 << 32, 1),
    (ALL, (1 << 32) + 1, 1),
    (ALL, ALL - FIRST, 1),
    (EVEN, 1, 0xaaaa_aaaa_aaaa_aaab),
    (EVEN, 2, 0x5555_5555_5555_5555),
    (EVEN, 7, 0xaaaa_aaaa_aaaa_aa81),
    (EVEN, 31, 0xaaaa_aaaa_8000_0001),
    (EVEN, 62, 0x4000_0000_0000_0001),
    (EVEN, 63, 0x8000_0000_0000_0001),
    (EVEN, 64, 1),
    (EVEN, 65, 1),
    (ODD, 1, 0x5555_5555_5555_5555),
    (ODD, 62, 0x8000_0000_0000_0001),
    (ODD, 63, 1),
    (ODD, 64, 1),
    (LAST, 1, 1),
    (LAST, 63, 1),
    (1, 63, 0x8000_0000_0000_0001),
    (0, 1, 1),
];

/// After which of these every counter about the 64 is tried, and after which each is taken that can be.
const TRIED: [(u64, u64); 5] = [(ALL, 63), (ALL, 1 << 32), (EVEN, 7), (EVEN, 31), (ODD, 1)];
const TAKEN: [(u64, u64); 2] = [(EVEN, 1), (ODD, 62)];

pub fn shifts(s: &mut Script) {
    for (i, (before, by, after)) in (0..).zip(SHIFTS) {
        s.set = 1 + i % 10;
        s.put(true, FIRST, before);
        s.open(0, FIRST + by);
        s.holds(FIRST + by, after);
        if TRIED.contains(&(before, by)) {
            tried(s, FIRST + by, after);
        }
        if TAKEN.contains(&(before, by)) {
            taken(s, FIRST + by, after);
        }
    }
    s.set = 1;
    twice(s);
}

/// A mark goes with each rise until it is the last of the 64, and then no further.
fn twice(s: &mut Script) {
    s.fresh();
    s.open(0, FIRST);
    s.open(0, FIRST + 31);
    s.holds(FIRST + 31, 0x0000_0000_8000_0001);
    s.open(0, FIRST + 63);
    s.holds(FIRST + 63, 0x8000_0001_0000_0001);
    s.open(15, FIRST);
    s.open(0, FIRST + 1); // 62 below
    s.holds(FIRST + 63, 0xc000_0001_0000_0001);
    s.open(0, FIRST + 64);
    s.holds(FIRST + 64, 0x8000_0002_0000_0003);
    s.open(15, FIRST); // 64 below
    s.open(15, FIRST + 1); // 63 below, and accepted
    s.open(0, FIRST + 65);
    s.holds(FIRST + 65, 0x0000_0004_0000_0007);
    s.open(15, FIRST + 1);
    s.open(0, FIRST + 2); // 63 below, and missing
    s.holds(FIRST + 65, 0x8000_0004_0000_0007);
}
