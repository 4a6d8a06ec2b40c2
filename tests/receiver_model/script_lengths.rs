//! The part of the script that is about lengths, by hand from F-7 and document 01.

use super::steps::Script;

const MOST: usize = 65536; // of a message
const ROOM: usize = 66000; // of the program's output

pub fn lengths(s: &mut Script) {
    for set in [1, 3, 5, 9, 10] {
        s.set = set;
        data(s);
        stubs(s);
        messages(s, &[0, 1, 8, 16, 33]);
    }
    for set in [1, 10] {
        s.set = set;
        nonces(s);
        messages(s, &[1000]);
        longest(s);
    }
    s.set = 1;
}

fn data(s: &mut Script) {
    s.fresh();
    for (n, data) in (0..).zip([0, 1, 16, 17, 4095, 4096]) {
        s.deliver(0, &s.piece_of(n, [data, 3, 3]));
    }
    for data in [4097, 4098, 8192] {
        s.deliver(4, &s.piece_of(6, [data, 3, 3]));
        s.deliver(4, &s.piece_of(5, [data, 3, 3])); // a repeat as well
    }
    s.plain(4, &s.piece_of(6, [4097, 3, 3]), s.lengths().0);
    s.holds(5, 0b11_1111);
}

/// Other lengths than 12, with the bytes of a good nonce among theirs.
fn nonces(s: &mut Script) {
    s.fresh();
    s.open(0, 500);
    for n in [500, 501] {
        for length in [0, 1, 3, 4, 8, 11, 13, 16, 24, 51] {
            let mut piece = s.piece(n);
            piece.opening.nonce.resize(length, 0);
            s.deliver(3, &piece);
        }
        let mut piece = s.piece(n);
        piece.opening.nonce.insert(0, 0); // the last eight bytes are the counter
        s.deliver(3, &piece);
        s.plain(3, &piece, s.lengths().0);
        piece.opening.nonce.drain(..5);
        s.deliver(3, &piece); // and the only ones
    }
    s.holds(500, 1);
}

/// Ciphertexts about as short as a tag.
fn stubs(s: &mut Script) {
    let t = s.tag();
    s.fresh();
    for length in [0, 1, t - 1] {
        for out in [0, 3, ROOM] {
            s.deliver(6, &s.noise(7, length).with_out(out));
        }
    }
    let shortest = s.piece_of(7, [1, 0, 0]);
    s.deliver(6, &shortest.changed(|text| text.truncate(t - 1)));
    s.deliver(6, &shortest.changed(Vec::clear));
    s.plain(6, &shortest.changed(Vec::clear), s.lengths().0);
    s.deliver(8, &s.noise(7, t));
    s.deliver(8, &s.noise(7, t).with_out(9));
    s.deliver(0, &shortest);
    s.deliver(15, &shortest);
    s.deliver(6, &shortest.changed(|text| text.truncate(t - 1)));
    s.deliver(0, &s.piece_of(8, [1, 0, 9]));
}

/// An output that is one byte too short, just long enough, and longer.
fn messages(s: &mut Script, of: &[usize]) {
    s.fresh();
    for (i, &length) in (0..).zip(of) {
        let n = 10 * i;
        let piece = s.piece_of(n, [16, length, length]);
        if length > 0 {
            s.deliver(7, &piece.with_out(length - 1));
            s.deliver(7, &piece.with_out(0));
        }
        s.deliver(8, &piece.damaged());
        s.deliver(8, &piece.damaged().with_out(length + 40));
        s.deliver(0, &piece);
        if length > 0 {
            s.deliver(7, &piece.with_out(length - 1)); // a repeat as well
        }
        s.deliver(0, &s.piece_of(n + 1, [16, length, length + 1]));
        s.deliver(0, &s.piece_of(n + 2, [16, length, length + 40]));
        s.deliver(15, &piece.with_out(length + 40));
    }
}

/// Ciphertexts about as long as there can be, which are false.
fn longest(s: &mut Script) {
    let t = s.tag();
    let (most, more) = (s.noise(900, MOST + t), s.noise(900, MOST + t + 1));
    s.fresh();
    s.deliver(8, &most);
    s.deliver(8, &most.with_out(ROOM));
    s.deliver(7, &most.with_out(MOST - 1));
    s.deliver(7, &most.with_out(0));
    s.deliver(5, &more);
    s.deliver(5, &more.with_out(ROOM));
    s.deliver(5, &more.with_out(0));
    s.open(0, 900);
    s.deliver(15, &most);
    s.deliver(15, &most.with_out(ROOM));
    s.deliver(7, &most.with_out(MOST - 1));
    s.deliver(5, &more);
}
