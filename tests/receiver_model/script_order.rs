//! The part of the script that is about the order of an opening's checks, by hand from F-7: each fault, each two that
//! can go together, and as many as can.

use super::openings::{Sender, Text};
use super::pieces::Piece;
use super::steps::Script;

/// The checks in their order.
pub const ORDER: [u32; 9] = [1, 3, 12, 4, 5, 6, 7, 15, 8];

/// What no opening has together: a ciphertext is not both too long and too short, and one that is shorter than a tag
/// needs no output.
pub const APART: [(u32, u32); 2] = [(5, 6), (6, 7)];

const HIGHEST: u64 = 500;
const MARKS: u64 = 0b101; // 500 and 498
const MISSING: u64 = 499;

/// A set, and its faults: a number that is none, a nonce's length, another prefix, and a repeat.
struct Faulty {
    set: u32,
    no_set: u32,
    nonce: usize,
    other: u32,
    repeat: u64,
}

const FAULTY: [Faulty; 4] = [
    Faulty {
        set: 1,
        no_set: 0,
        nonce: 11,
        other: 0x0102_0305,
        repeat: 498,
    },
    Faulty {
        set: 3,
        no_set: 11,
        nonce: 13,
        other: 0x0403_0201,
        repeat: 436, // 64 below
    },
    Faulty {
        set: 9,
        no_set: u32::MAX,
        nonce: 0,
        other: 0,
        repeat: 500,
    },
    Faulty {
        set: 10,
        no_set: 266,
        nonce: 24,
        other: u32::MAX,
        repeat: 0, // 500 below
    },
];

pub fn order(s: &mut Script) {
    for faulty in FAULTY {
        s.set = faulty.set;
        pairs(s, &faulty);
        many(s, &faulty);
        deliver(s, &faulty, &[]);
        s.holds(HIGHEST, 0b111);
    }
    s.set = 1;
}

/// From the first to both, and from the second to both.
fn pairs(s: &mut Script, faulty: &Faulty) {
    for (i, &first) in ORDER.iter().enumerate() {
        for &second in &ORDER[i + 1..] {
            if APART.contains(&(first, second)) {
                continue;
            }
            deliver(s, faulty, &[first]);
            deliver(s, faulty, &[first, second]);
            deliver(s, faulty, &[second]);
            deliver(s, faulty, &[first, second]);
        }
    }
}

/// All from each on that go together with a ciphertext that is too long, and with one that is too short.
fn many(s: &mut Script, faulty: &Faulty) {
    for apart in [&[6][..], &[5, 7]] {
        let together = ORDER.iter().filter(|fault| !apart.contains(fault));
        let together: Vec<u32> = together.copied().collect();
        for i in 0..together.len() {
            deliver(s, faulty, &together[i..]);
        }
    }
}

/// An opening with these faults, which stand in their order. The first is the answer.
#[track_caller]
fn deliver(s: &mut Script, faulty: &Faulty, faults: &[u32]) {
    let set = if faults.contains(&1) {
        faulty.no_set
    } else {
        faulty.set
    };
    let there = s.receiver.values();
    if (there.set, there.highest, there.marks) != (set, HIGHEST, MARKS) {
        s.put_set(set, true, HIGHEST, MARKS);
    }
    let answer = faults.first().copied().unwrap_or(0);
    s.deliver(answer, &piece(s, faulty, faults));
}

/// True and of a missing counter, but for the faults.
fn piece(s: &Script, faulty: &Faulty, faults: &[u32]) -> Piece {
    let has = |fault| faults.contains(&fault);
    let mut sender = s.sender();
    if has(12) {
        sender = Sender {
            prefix: faulty.other,
            ..sender
        };
    }
    let n = if has(15) { faulty.repeat } else { MISSING };
    let data = if has(4) { 4097 } else { 16 };
    let mut piece = s.piece_by(&sender, n, [data, 5, 7]);
    if has(8) {
        piece = piece.damaged();
    }
    if has(5) {
        piece.opening.text = Text::Noise(65537 + s.tag(), 9);
        piece.opening.out = 65537;
    }
    if has(6) {
        piece = piece.changed(|text| text.truncate(s.tag() - 1));
    }
    if has(7) {
        piece.opening.out = piece.opening.text.len() - s.tag() - 1;
    }
    if has(3) {
        piece.opening.nonce.resize(faulty.nonce, 0);
    }
    piece
}
