//! The part of the script that is about a second counter, so far above or below the first, by hand from F-7.

use super::steps::Script;

const WITH_62: u64 = 1 << 62 | 1; // the highest, and the one 62 below
const WITH_63: u64 = 1 << 63 | 1; // the highest, and the one 63 below: the last of the 64

/// How far the second is above the first, and the marks after it.
const ABOVE: [(u64, u64); 9] = [
    (1, 0b11),
    (62, WITH_62),
    (63, WITH_63),
    (64, 1),
    (65, 1),
    (127, 1),
    (128, 1),
    (1 << 32, 1),
    (u64::MAX, 1), // from 0 to the last of all
];

/// How far it is below, its answer, and the marks after it.
const BELOW: [(u64, u32, u64); 10] = [
    (0, 15, 1),
    (1, 0, 0b11),
    (62, 0, WITH_62),
    (63, 0, WITH_63),
    (64, 15, 1),
    (65, 15, 1),
    (127, 15, 1),
    (128, 15, 1),
    (1 << 32, 15, 1),
    (u64::MAX, 15, 1), // from the last of all to 0
];

pub fn offsets(s: &mut Script) {
    firsts(s);
    across(s);
    above(s);
    below(s);
    s.set = 1;
    far(s);
}

/// A fresh receiver takes every counter.
fn firsts(s: &mut Script) {
    for first in [0, 1, 63, 64, 65, 1 << 32, 1 << 63, u64::MAX - 1, u64::MAX] {
        s.fresh();
        s.probe(8, first);
        s.open(0, first);
        s.holds(first, 1);
        s.open(15, first);
        s.probe(15, first);
    }
}

/// Where the bytes of a counter are full, and in the middle of all.
fn across(s: &mut Script) {
    for n in [1 << 8, 1 << 16, 1 << 32, 1 << 56, 1 << 63] {
        s.fresh();
        s.open_empty(0, n - 1);
        s.open_empty(0, n);
        s.holds(n, 0b11);
        s.open_empty(15, n - 1);
        s.open_empty(15, n - 64);
        s.open_empty(0, n - 63);
        s.holds(n, 0x8000_0000_0000_0003);
        s.open_empty(0, n + 1);
        s.open_empty(15, n - 63); // accepted, and no more among the 64
        s.holds(n + 1, 0b111);
    }
}

fn above(s: &mut Script) {
    for (i, (offset, marks)) in (0..).zip(ABOVE) {
        s.set = 1 + i % 10;
        let mut firsts = vec![0, u64::MAX - offset];
        firsts.extend(offset.checked_add(1000).map(|_| 1000));
        firsts.dedup();
        for first in firsts {
            let second = first + offset;
            s.fresh();
            s.open(0, first);
            s.open(0, second);
            s.holds(second, marks);
            s.open(15, first); // marked, or no more among the 64
            s.open(15, second);
        }
        tried(s, s.receiver.highest, marks);
    }
}

fn below(s: &mut Script) {
    for (i, (offset, answer, marks)) in (0..).zip(BELOW) {
        s.set = 10 - i % 10;
        for first in [offset, u64::MAX] {
            let second = first - offset;
            s.fresh();
            s.open(0, first);
            s.open(answer, second);
            s.holds(first, marks);
            s.open(15, second);
            s.open(15, first);
        }
        if offset == 63 {
            tried(s, u64::MAX, marks);
            taken(s, u64::MAX, marks);
        }
    }
}

/// Distances that are 1 to who has only so many bits for them.
fn far(s: &mut Script) {
    let distances = [6, 7, 8, 15, 16, 24, 31, 32, 33, 40, 48, 56, 63].map(|bits| (1 << bits) + 1);
    s.put(true, u64::MAX, 1);
    for distance in distances {
        s.probe(15, u64::MAX - distance);
    }
    for distance in distances {
        s.put(true, 5, 1);
        s.open_empty(0, 5 + distance);
        s.holds(5 + distance, 1);
    }
}

/// Whether the counter so far below the highest is a repeat, by marks that are written by hand.
fn repeat(below: i128, marks: u64) -> bool {
    below >= 64 || below >= 0 && marks >> below & 1 == 1
}

/// False pieces of the 64 that end at the highest, and of three to each side. They change nothing.
#[track_caller]
pub fn tried(s: &mut Script, highest: u64, marks: u64) {
    for below in -3..=66 {
        if let Ok(n) = u64::try_from(highest as i128 - below) {
            s.probe(if repeat(below, marks) { 15 } else { 8 }, n);
        }
    }
}

/// True pieces of the 64 and of three below, each taken unless it is a repeat.
#[track_caller]
pub fn taken(s: &mut Script, highest: u64, marks: u64) {
    for below in 0..=66 {
        if let Ok(n) = u64::try_from(highest as i128 - below) {
            s.open_empty(if repeat(below, marks) { 15 } else { 0 }, n);
        }
    }
    let there = (highest as u128 + 1).min(64); // from counter 0 on
    s.holds(highest, marks | ((1u128 << there) - 1) as u64);
}
