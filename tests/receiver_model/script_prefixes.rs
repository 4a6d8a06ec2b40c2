//! The part of the script that is about the first four nonce bytes, by hand from F-7.

use super::openings::Sender;
use super::pieces::Piece;
use super::steps::Script;

const PREFIXES: [u32; 5] = [0, u32::MAX, 0x0102_0304, 1, 0x8000_0000];

pub fn prefixes(s: &mut Script) {
    let before = s.prefix;
    for (set, prefix) in [1, 3, 5, 9, 10].into_iter().zip(PREFIXES) {
        s.set = set;
        s.prefix = prefix;
        starts(s);
        in_counters(s);
        hand_made(s);
    }
    s.set = 1;
    s.prefix = before;
}

/// Numbers that the four bytes are to who reads them wrongly, and each byte alone another.
fn others(prefix: u32) -> Vec<u32> {
    let bits = [0, 8, 16, 24].map(|byte| [1 << byte, 0x80 << byte]);
    let turned = [8, 16, 24].map(|by| prefix.rotate_left(by));
    let mut all = vec![prefix.swap_bytes(), prefix.swap_bytes().rotate_left(16)];
    all.extend(turned);
    all.extend(bits.concat().iter().map(|bit: &u32| prefix ^ bit));
    all.extend([prefix.wrapping_add(1), prefix.wrapping_sub(1), !prefix]);
    all.retain(|&other| other != prefix); // turned, 0 is the same
    all
}

/// Sealed under these first four bytes: all is true but for them.
fn from(s: &Script, prefix: u32, n: u64) -> Piece {
    let sender = Sender {
        prefix,
        ..s.sender()
    };
    s.piece_by(&sender, n, [1, 3, 5])
}

/// Each other start is refused, on a fresh receiver and after, whatever the counter.
fn starts(s: &mut Script) {
    s.fresh();
    for other in others(s.prefix) {
        s.deliver(12, &from(s, other, 70));
    }
    s.plain(0, &from(s, !s.prefix, 70), s.lengths().0); // which asks for no prefix
    s.open(0, 70);
    for other in others(s.prefix) {
        s.deliver(12, &from(s, other, 71));
    }
    for n in [70, 69, 6, u64::MAX] {
        s.deliver(12, &from(s, !s.prefix, n));
        s.deliver(12, &from(s, !s.prefix, n).damaged());
    }
    s.holds(70, 1);
    s.open(0, 71);
}

/// The number in the eight bytes after the first four, which are other ones or the right ones.
fn in_counters(s: &mut Script) {
    let number = s.prefix as u64;
    s.fresh();
    for n in [number, number << 32, number << 32 | number, number << 16] {
        s.deliver(12, &from(s, !s.prefix, n));
        s.deliver(12, &from(s, s.prefix ^ 1, n));
    }
    s.open(0, number << 32 | number);
    s.holds(number << 32 | number, 1);
    s.fresh();
    s.open(0, number);
    s.holds(number, 1);
}

/// On a receiver that has begun by hand, a repeat of another start is answered 12.
fn hand_made(s: &mut Script) {
    s.put(true, 500, u64::MAX);
    s.open(15, 500);
    for other in others(s.prefix).into_iter().take(3) {
        s.deliver(12, &from(s, other, 500));
        s.deliver(12, &from(s, other, 501));
    }
    s.open(0, 501);
}
