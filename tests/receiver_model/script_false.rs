//! The part of the script that is about false pieces, by hand from F-7: only a true opening is recorded.

use super::pieces::Piece;
use super::steps::Script;

pub fn false_pieces(s: &mut Script) {
    for set in [1, 3, 5, 9, 10] {
        s.set = set;
        then_true(s);
        leaves_the_window(s);
    }
    s.set = 3;
    each_byte(s);
    other_strings(s);
    s.set = 1;
}

/// 8, then 0 under the same counter, then 15 for either.
fn then_true(s: &mut Script) {
    let piece = s.piece_of(70, [3, 20, 25]);
    s.fresh();
    s.deliver(8, &piece.damaged());
    s.deliver(8, &piece.damaged());
    s.deliver(0, &piece);
    s.deliver(15, &piece);
    s.deliver(15, &piece.damaged());
    s.holds(70, 1);
    // Late, above, and 63 below that one.
    for n in [69, 71, 8] {
        let piece = s.piece_of(n, [3, 20, 25]);
        s.deliver(8, &piece.damaged());
        s.deliver(0, &piece);
        s.deliver(15, &piece);
        s.deliver(15, &piece.damaged());
    }
    s.holds(71, 0x8000_0000_0000_0007);
}

/// A false piece far above the highest takes nothing out of the window, and one below is a repeat before it is false.
fn leaves_the_window(s: &mut Script) {
    s.fresh();
    s.open(0, 100);
    for n in [101, 163, 164, 1 << 32, u64::MAX] {
        s.deliver(8, &s.piece(n).damaged());
    }
    s.holds(100, 1);
    s.open(0, 37); // 63 below
    for n in [36, 35, 1, 0] {
        s.open(15, n);
        s.deliver(15, &s.piece(n).damaged());
    }
    s.holds(100, 0x8000_0000_0000_0001);
    s.open(0, 101);
    s.holds(101, 0b11);
}

/// A bit of any byte makes it false, and so does a byte less or more.
fn each_byte(s: &mut Script) {
    let piece = s.piece_of(5, [3, 20, 25]);
    let length = piece.opening.text.len();
    s.fresh();
    for i in 0..length {
        s.deliver(8, &piece.changed(|text| text[i] ^= 0x80));
    }
    s.deliver(8, &piece.changed(|text| text.truncate(length - 1)));
    s.deliver(8, &piece.changed(|text| text.push(0)));
    s.deliver(0, &piece);
    for i in 0..length {
        s.deliver(15, &piece.changed(|text| text[i] ^= 0x80));
    }
}

/// Other data, another counter, and another key.
fn other_strings(s: &mut Script) {
    let piece = s.piece_of(5, [3, 20, 25]);
    let with = |change: fn(&mut Piece)| {
        let mut other = piece.clone();
        change(&mut other);
        other
    };
    s.fresh();
    s.deliver(8, &with(|piece| piece.opening.seed += 1));
    s.deliver(8, &with(|piece| piece.opening.data = 2));
    s.deliver(8, &with(|piece| piece.opening.data = 0));
    s.deliver(8, &with(|piece| piece.opening.nonce[11] = 6));
    s.deliver(8, &with(|piece| piece.opening.nonce[4] = 1));
    let mut sender = s.sender();
    sender.key[15] ^= 1;
    let other = s.piece_by(&sender, 5, [3, 20, 25]);
    s.deliver(8, &other);
    s.deliver(0, &piece);
    s.deliver(8, &with(|piece| piece.opening.nonce[11] = 6));
    s.deliver(15, &other);
    s.holds(5, 1);
}
