//! The part of the script that is about console numbers, by hand from F-2.

use super::model::Ledger;
use super::numbers::{nonce_on, MOST_LOW};
use super::steps::Script;

const CONSOLES: [u16; 6] = [0, 1, 255, 256, 258, 65535];
const NONE: [usize; 3] = [0, 0, 8]; // no data, no message and room for the tag of set 3

pub fn consoles(s: &mut Script) {
    let console = s.console;
    for of in CONSOLES {
        s.console = of;
        makings(s);
        starts(s);
        fresh(s);
    }
    for of in [0, 258, 65535] {
        s.console = of;
        lengths(s);
    }
    s.console = 258;
    before_12(s);
    after_12(s);
    stale_and_spent(s);
    all_together(s);
    other_last(s);
    one_key(s);
    own_capacity(s);
    s.console = console;
}

/// Accepted ones have the console, refused ones 0.
fn makings(s: &mut Script) {
    s.make(0, 10, 32);
    s.make(2, 10, 31);
    s.make(0, 3, 16);
    s.make(1, 11, 16);
    s.seal((1, 0), 5, NONE); // the ledger is gone
    s.make(1, 0, 15);
}

/// Numbers that the two bytes are to who reads them wrongly, or one bit away.
fn others(console: u16) -> Vec<u16> {
    let near = [console.wrapping_add(1), console.wrapping_sub(1)];
    let bits = [0x0001, 0x0080, 0x0100, 0x8000].map(|bit| console ^ bit);
    let mut all = [&[console.swap_bytes()], &near[..], &bits].concat();
    all.retain(|&other| other != console); // the two bytes of 0 and of 65535 are equal
    all
}

/// The right start is accepted and each other is not, on a fresh ledger and after.
fn starts(s: &mut Script) {
    let console = s.console;
    let at_end = |start| nonce_on(start, 0x5555_5555_5555_5555_0000 | console as u128);
    s.make(0, 3, 16);
    for other in others(console) {
        s.seal_on(other, (12, 0), 5, NONE);
    }
    s.seal_bytes((12, 0), at_end(!console), NONE); // the number in the last two bytes only
    s.seal((0, 1), 5, [1, 0, 8]);
    for other in others(console) {
        s.seal_on(other, (12, 1), 6, NONE);
    }
    s.seal_bytes((12, 1), at_end(!console), NONE);
    s.seal((0, 2), 6, [0, 1, 9]);
    s.seal_bytes((0, 3), at_end(console), NONE);
}

/// A fresh ledger takes the least and the greatest nonce that begins with its number.
fn fresh(s: &mut Script) {
    s.make(0, 3, 16);
    s.seal((0, 1), 0, NONE);
    s.seal((0, 2), MOST_LOW, NONE);
    s.make(0, 3, 16);
    s.seal((0, 1), MOST_LOW, NONE);
    s.seal((9, 1), MOST_LOW, NONE);
    s.put(3, 0, None);
    s.seal((0, 1), 0, NONE);
}

/// 3 before 12: nonces that begin with the number, with another, or have no two bytes.
fn lengths(s: &mut Script) {
    s.make(0, 3, 16);
    for start in [s.console, !s.console] {
        for length in [0, 1, 2, 11, 13] {
            let mut nonce = nonce_on(start, 5);
            nonce.resize(length, 0);
            s.seal_bytes((3, 0), nonce, NONE);
        }
    }
}

/// 1 and 3 come before 12.
fn before_12(s: &mut Script) {
    let (right, wrong) = (s.console, s.console + 1);
    for set in [0, 11, 259] {
        s.put(set, 5, Some(500));
        s.seal_on(right, (1, 5), 501, NONE);
        s.seal_on(wrong, (1, 5), 501, NONE);
    }
    s.put(3, 5, Some(500));
    for length in [11, 13] {
        for start in [right, wrong] {
            let mut nonce = nonce_on(start, 501);
            nonce.resize(length, 0);
            s.seal_bytes((3, 5), nonce, NONE);
        }
    }
    s.seal_on(wrong, (12, 5), 501, NONE);
    s.seal_on(right, (0, 6), 501, NONE);
}

/// 4, 5 and 7 come after 12.
fn after_12(s: &mut Script) {
    let (right, wrong) = (s.console, s.console + 1);
    s.put(3, 5, Some(500));
    let refused = [
        (4, [4097, 32, 40]),
        (5, [16, 65537, 65545]),
        (7, [16, 32, 39]),
    ];
    for (answer, lengths) in refused {
        s.seal_on(right, (answer, 5), 501, lengths);
        s.seal_on(wrong, (12, 5), 501, lengths);
    }
    s.seal_on(wrong, (12, 5), 501, [16, 32, 40]);
    s.seal_on(right, (0, 8), 501, [16, 32, 40]);
}

/// 9 and 10 come after 12. With a lower number the nonce is stale as well, with a higher one it is not.
fn stale_and_spent(s: &mut Script) {
    let (right, lower, higher) = (s.console, s.console - 1, s.console + 1);
    s.put(3, 65536, Some(500));
    s.seal_on(right, (9, 65536), 500, NONE);
    s.seal_on(lower, (12, 65536), 500, NONE);
    s.seal_on(lower, (12, 65536), MOST_LOW, NONE);
    s.seal_on(higher, (12, 65536), 0, NONE);
    s.seal_on(right, (10, 65536), 501, [0, 1, 9]);
    s.seal_on(higher, (12, 65536), 501, [0, 1, 9]); // 12 and 10
    s.seal_on(right, (9, 65536), 500, [0, 1, 9]);
    s.seal_on(lower, (12, 65536), 500, [0, 1, 9]); // 12, 9 and 10
    s.put(3, 65535, Some(500));
    s.seal_on(right, (0, 65536), 501, NONE);
}

/// From all refusals at once to none, the first taken away each time.
fn all_together(s: &mut Script) {
    let (right, wrong) = (s.console, s.console - 1);
    let long = [nonce_on(wrong, 500), vec![0]].concat();
    for (answer, set) in [(1, 11), (3, 3)] {
        s.put(set, 65536, Some(500));
        s.seal_bytes((answer, 65536), long.clone(), [4097, 65537, 0]);
    }
    s.seal_on(wrong, (12, 65536), 500, [4097, 65537, 0]);
    s.seal_on(right, (4, 65536), 500, [4097, 65537, 0]);
    s.seal_on(right, (5, 65536), 500, [16, 65537, 0]);
    s.seal_on(right, (7, 65536), 500, [16, 32, 0]);
    s.seal_on(right, (9, 65536), 500, [16, 32, 40]);
    s.seal_on(right, (10, 65536), 501, [16, 32, 40]);
    s.put(3, 65533, Some(500));
    s.seal_on(right, (0, 65536), 501, [16, 32, 40]);
}

/// The last nonce begins with another number. The ledger's own is asked for, not that one.
fn other_last(s: &mut Script) {
    for (own, other) in [(258, 257), (258, 259), (258, 513), (0, 65535), (65535, 0)] {
        s.console = own;
        s.put_last(3, 5, Some(nonce_on(other, 500)));
        s.seal_on(other, (12, 5), 501, NONE); // above the last
        s.seal_on(other, (12, 5), 500, NONE); // and not
        let (answer, one) = if own > other { (0, 1) } else { (9, 0) };
        s.seal((answer, 5 + one), 0, NONE);
        s.seal((answer, 5 + 2 * one), 501, NONE);
        s.seal_on(other, (12, 5 + 2 * one), 502, NONE);
    }
    s.console = 258;
}

/// Lists on three consoles of one key, in turn: each counts its own charges, and its nonces are not the others'.
fn one_key(s: &mut Script) {
    let consoles = [1, 256, 65535];
    let mut kept: Vec<Ledger> = vec![];
    for console in consoles {
        s.console = console;
        s.make(0, 3, 16);
        kept.push(s.ledger.clone());
    }
    for round in 1..=4 {
        for (i, blocks) in [1, 2, 5].into_iter().enumerate() {
            let text = 16 * blocks;
            let (before, after) = (blocks * (round - 1), blocks * round);
            let other = consoles[(i + round) % 3];
            s.put_back(kept[i].clone());
            if other != consoles[i] {
                s.seal_on(
                    other,
                    (12, before as u64),
                    round as u128,
                    [0, text, text + 8],
                );
            }
            s.seal((0, after as u64), round as u128, [0, text, text + 8]);
            s.seal((9, after as u64), round as u128, [0, text, text + 8]);
            kept[i] = s.ledger.clone();
        }
    }
}

/// A full ledger leaves the others of its key their capacity.
fn own_capacity(s: &mut Script) {
    let mut kept: Vec<Ledger> = vec![];
    for (console, total) in [(1, 65535), (256, 65534), (65535, 65533)] {
        s.console = console;
        s.put(3, total, None);
        kept.push(s.ledger.clone());
    }
    for round in 1..=4 {
        for (i, left) in [1, 2, 3].into_iter().enumerate() {
            s.put_back(kept[i].clone());
            let (answer, total) = match round <= left {
                true => (0, 65536 - left + round),
                false => (10, 65536),
            };
            s.seal((answer, total), round as u128, [0, 1, 9]);
            kept[i] = s.ledger.clone();
        }
    }
    s.console = 258;
}
