//! Pieces as long as there can be, which would make the script of the gate too long, with answers by hand from F-7 and
//! document 01.

use super::steps::Script;

const MOST: usize = 65536; // of a message

pub fn long_pieces() -> Script {
    let mut s = Script::new();
    for set in [1, 3, 5, 9, 10] {
        s.set = set;
        longest(&mut s);
    }
    s
}

fn longest(s: &mut Script) {
    let (key, _) = s.lengths();
    let piece = s.piece_of(7, [4096, MOST, MOST]);
    let longer = s.piece_of(7, [4096, MOST + 1, MOST + 1]);
    s.fresh();
    s.deliver(5, &longer);
    s.plain(5, &longer, key);
    s.deliver(7, &piece.with_out(MOST - 1));
    s.deliver(8, &piece.damaged());
    s.deliver(0, &piece);
    s.deliver(15, &piece);
    s.deliver(15, &piece.damaged());
    s.plain(0, &piece, key);
    s.plain(8, &piece.damaged(), key);
    s.deliver(0, &s.piece_of(8, [0, MOST - 1, MOST + 40]));
    s.holds(8, 0b11);
}
