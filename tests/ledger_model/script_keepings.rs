//! The part of the script that is about keepings among the other calls of a ledger, by hand from F-3: its nonces, its
//! capacity, ordinary sealings, makings, and other ledgers of its key.

use super::model::Ledger;
use super::numbers::MOST_LOW;
use super::steps::Script;

pub fn keepings(s: &mut Script) {
    s.console = 258;
    s.lent = &[false, true];
    nonces(s);
    whole_capacity(s);
    ordinary(s);
    makings(s);
    one_key(s);
}

/// Keeping leaves the last nonce, and that there is none. Both kinds of sealing have their nonces in common.
fn nonces(s: &mut Script) {
    s.make(0, 3, 16);
    s.keep((0, 1), 0, 1);
    s.name((0, 2), 0, 0, [0, 8]); // the least
    s.make(0, 3, 16);
    s.keep((0, 1), 0, 1);
    s.seal((0, 2), 0, [0, 0, 8]);
    s.keep((0, 3), 0, 1);
    s.name((9, 3), 0, 0, [0, 8]);
    s.seal((9, 3), 0, [0, 0, 8]);
    s.name((0, 4), 0, 5, [0, 8]);
    s.seal((9, 4), 5, [0, 0, 8]);
    s.seal((0, 5), 6, [0, 0, 8]);
    s.name((9, 5), 0, 6, [0, 8]);
    s.name((9, 5), 0, 5, [0, 8]);
    s.name((0, 6), 0, MOST_LOW, [0, 8]);
    s.keep((0, 7), 0, 1); // no nonce is left, and it needs none
    s.name((9, 7), 0, MOST_LOW, [0, 8]);
}

/// On set 1, 256 keepings of 256 blocks make 65,536, the capacity. An older ledger then takes empty calls, until it is
/// carried over.
fn whole_capacity(s: &mut Script) {
    s.make(0, 1, 16);
    for i in 1..=256 {
        s.keep((0, 256 * i), 7, 4096);
    }
    s.keep((10, 65536), 7, 1);
    s.keep((10, 65536), 0, 4096);
    s.name((10, 65536), 7, 1, [1, 5]);
    s.seal((10, 65536), 1, [1, 0, 4]);
    empty_calls(s, 10, 1);
    s.put_back(s.ledger.clone().older());
    empty_calls(s, 0, 1);
    s.name((0, 65536), 0, 3, [0, 4]);
    s.carry(0);
    empty_calls(s, 10, 4);
}

/// A keeping under another name, and both kinds of sealing with nonces from this on.
fn empty_calls(s: &mut Script, answer: u32, low: u128) {
    s.keep((answer, 65536), 0, 0);
    s.name((answer, 65536), 7, low, [0, 4]);
    s.seal((answer, 65536), low + 1, [0, 0, 4]);
}

/// Ordinary sealings, by value and lent, charge for their data and leave what is kept.
fn ordinary(s: &mut Script) {
    s.make(0, 3, 16);
    s.keep_seed((0, 2), 0, 17, 5);
    s.keep_seed((0, 3), 6, 16, 6);
    for (i, total) in (0..4).zip([7, 11, 15, 19]) {
        s.seal((0, total), i, [17, 17, 25]);
    }
    s.seal((9, 19), 3, [17, 17, 25]);
    s.seal((4, 19), 4, [4097, 17, 25]);
    s.name((0, 21), 0, 4, [17, 25]);
    s.seal((0, 25), 5, [17, 17, 25]);
    s.name((0, 27), 6, 6, [17, 25]);
}

/// After a making, refused or not, nothing is kept.
fn makings(s: &mut Script) {
    for (answer, set, length) in [(1, 11, 16), (2, 3, 15), (0, 3, 16)] {
        s.make(0, 3, 16);
        for name in 0..8 {
            s.keep((0, name as u64 + 1), name, 16);
        }
        s.make(answer, set, length);
        let found = if answer == 0 { 13 } else { 1 };
        for name in [0, 3, 7] {
            s.name((found, 0), name, 1, [16, 24]);
        }
    }
}

/// Consoles of one key: each has its own headings and its own nonces.
fn one_key(s: &mut Script) {
    let consoles = [1, 256, 65535];
    let mut ledgers: Vec<Ledger> = vec![];
    for (console, seed) in consoles.into_iter().zip(1..) {
        s.console = console;
        s.make(0, 3, 16);
        s.keep_seed((0, 1), 2, 16, seed);
        ledgers.push(s.ledger.clone());
    }
    for i in [0, 1, 2, 1] {
        s.put_back(ledgers[i].clone());
        let total = s.ledger.total;
        s.console = consoles[(i + 1) % 3];
        s.name((12, total), 2, 5, [16, 24]);
        s.console = consoles[i];
        s.name((0, total + 1), 2, total as u128, [16, 24]);
        ledgers[i] = s.ledger.clone();
    }
    s.console = 258;
}
