//! The script of the gate. The answers in it, and the windows, are those of F-7, by hand; the model must agree.

use super::script_false::false_pieces;
use super::script_hand_made::hand_made;
use super::script_late::late;
use super::script_lengths::lengths;
use super::script_offsets::offsets;
use super::script_order::order;
use super::script_prefixes::prefixes;
use super::script_runs::runs;
use super::script_shifts::shifts;
use super::steps::Script;

pub fn script() -> Script {
    let mut s = Script::new();
    before_the_first(&mut s);
    makings(&mut s);
    every_set(&mut s);
    order(&mut s);
    offsets(&mut s);
    shifts(&mut s);
    false_pieces(&mut s);
    late(&mut s);
    prefixes(&mut s);
    hand_made(&mut s);
    lengths(&mut s);
    runs(&mut s);
    s
}

/// There is no receiver yet.
fn before_the_first(s: &mut Script) {
    s.prefix = 0;
    s.open(1, 0);
    s.plain(1, &s.piece(0), 16);
    s.prefix = 0x0102_0304;
}

/// 1 and 2, 1 before 2, and what a refused making leaves.
fn makings(s: &mut Script) {
    for set in [0, 11, 12, 255, 256, 257, 65537, 1 << 31 | 1, u32::MAX] {
        s.make(1, set, 16);
    }
    s.make(1, 11, 15);
    s.make(1, 0, 0);
    for (set, right) in [(1, 16), (8, 16), (9, 24), (10, 32)] {
        for length in [0, 15, 16, 17, 23, 24, 25, 31, 32, 33, 54] {
            s.make(if length == right { 0 } else { 2 }, set, length);
        }
    }
    for prefix in [0, 1, 0x0403_0201, u32::MAX] {
        s.prefix = prefix;
        s.fresh();
        s.open(0, 7);
        s.make(2, 1, 24); // the receiver is gone
        s.open(1, 8);
        s.fresh(); // and with a new one what it had accepted
        s.open(0, 7);
        s.make(1, 11, 16);
        s.open(1, 8);
    }
    s.prefix = 0x0102_0304;
}

/// In each: an output that is too short, a true piece, the same again, a false one and the true one after it; and what
/// plain opening, which knows no repeats, has to them. Messages of 17 and of 33 bytes.
fn every_set(s: &mut Script) {
    for set in 1..=10 {
        s.set = set;
        let (key, _) = s.lengths();
        let piece = s.piece_of(0, [1, 17, 20]);
        let next = s.piece_of(1, [16, 33, 33]);
        s.fresh();
        s.deliver(7, &piece.with_out(16));
        s.plain(7, &piece.with_out(16), key);
        s.deliver(0, &piece);
        s.plain(0, &piece, key);
        s.deliver(15, &piece);
        s.plain(0, &piece, key);
        s.plain(2, &piece, key - 1);
        s.deliver(8, &next.damaged());
        s.plain(8, &next.damaged(), key);
        s.deliver(0, &next);
        s.deliver(15, &next.damaged());
        s.plain(8, &next.damaged(), key);
        s.holds(1, 0b11);
    }
    s.set = 1;
}
