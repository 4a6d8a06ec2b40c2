//! The part of the script that is about what empty calls are charged, by hand from F-4: nothing on an older ledger, a
//! block on a newer one. Set 3 has tags of 8 bytes.

use super::steps::Script;
use crate::shared::scripts::KEYS_AND_TAGS;

pub fn heartbeats(s: &mut Script) {
    s.console = 258;
    s.lent = &[false, true];
    s.on_both(every_set);
    s.on_both(one_block_and_more);
    one_carrying(s);
    carried_at_once(s);
    carried_twice(s);
    carried_last(s);
    not_fresh(s);
    s.on_both(refused);
}

/// Empty calls of each kind, the sealings by value and lent.
fn every_set(s: &mut Script) {
    let empty = s.empty();
    for (set, (_, t)) in (1..).zip(KEYS_AND_TAGS) {
        s.fresh(set);
        s.seal((0, empty), 0, [0, 0, t]);
        s.seal((0, 2 * empty), 1, [0, 0, t]);
        s.keep((0, 3 * empty), 6, 0);
        s.name((0, 4 * empty), 6, 2, [0, t]);
        s.keep((0, 5 * empty), 6, 0); // again
        s.seal((0, 5 * empty + 3), 3, [1, 17, 17 + t]);
    }
}

/// From one byte on the two charges are the same: those of data and message together have at least one block.
fn one_block_and_more(s: &mut Script) {
    s.fresh(3);
    s.seal((0, 1), 1, [1, 0, 8]);
    s.seal((0, 2), 2, [0, 1, 9]);
    s.seal((0, 4), 3, [1, 1, 9]);
    s.seal((0, 5), 4, [16, 0, 8]);
    s.seal((0, 6), 5, [0, 16, 24]);
    s.seal((0, 8), 6, [17, 0, 8]);
    s.seal((0, 10), 7, [0, 17, 25]);
    s.keep((0, 11), 0, 1);
    s.keep((0, 12), 0, 16);
    s.keep((0, 14), 0, 17);
    s.name((0, 15), 0, 8, [1, 9]);
    s.name((0, 16), 0, 9, [16, 24]);
    s.name((0, 18), 0, 10, [17, 25]);
}

/// The older charges before it and the newer ones after, of the same calls.
fn one_carrying(s: &mut Script) {
    s.on_older(|s| s.fresh(3));
    s.seal((0, 0), 1, [0, 0, 8]);
    s.seal((0, 0), 2, [0, 0, 8]);
    s.keep((0, 0), 1, 0);
    s.name((0, 0), 1, 3, [0, 8]);
    s.seal((0, 3), 4, [1, 17, 25]);
    s.keep((0, 5), 2, 32);
    s.name((0, 6), 2, 5, [16, 24]);
    s.carry(0);
    s.seal((0, 7), 6, [0, 0, 8]);
    s.seal((0, 8), 7, [0, 0, 8]);
    s.keep((0, 9), 1, 0);
    s.name((0, 10), 1, 8, [0, 8]);
    s.seal((0, 13), 9, [1, 17, 25]);
    s.keep((0, 15), 2, 32);
    s.name((0, 16), 2, 10, [16, 24]);
}

/// Before any other call: the ledger is a made one.
fn carried_at_once(s: &mut Script) {
    s.on_older(|s| s.fresh(3));
    s.carry(0);
    let carried = s.ledger.clone();
    s.make(0, 3, 16);
    assert_eq!(s.ledger, carried, "another ledger");
    s.put_back(carried);
    s.seal((0, 1), 0, [0, 0, 8]); // it has no last nonce
    s.keep((0, 2), 7, 0);
    s.name((0, 3), 7, 1, [0, 8]);
}

/// The first carrying counts.
fn carried_twice(s: &mut Script) {
    s.on_older(|s| s.fresh(3));
    s.seal((0, 0), 1, [0, 0, 8]);
    s.carry(0);
    s.seal((0, 1), 2, [0, 0, 8]);
    s.keep((0, 2), 0, 0);
    s.carry(0);
    s.carry(0);
    s.name((0, 3), 0, 3, [0, 8]);
    s.seal((0, 4), 4, [0, 0, 8]);
    s.carry(0);
    s.keep((0, 5), 0, 0);
}

/// After all other calls: their charges stay the older ones.
fn carried_last(s: &mut Script) {
    s.on_older(|s| s.fresh(3));
    for low in 1..=5 {
        s.seal((0, 0), low, [0, 0, 8]);
    }
    s.keep((0, 1), 0, 16);
    s.name((0, 1), 0, 6, [0, 8]);
    s.carry(0);
}

/// A total from before stays as it is.
fn not_fresh(s: &mut Script) {
    s.on_older(|s| s.put(3, 60000, Some(9)));
    s.keep((0, 60000), 5, 0);
    s.seal((0, 60001), 10, [0, 1, 9]);
    s.carry(0);
    s.seal((9, 60001), 10, [0, 0, 8]);
    s.seal((0, 60002), 11, [0, 0, 8]);
    s.name((0, 60003), 5, 12, [0, 8]);
}

/// A refused call is charged nothing, an empty one or not.
fn refused(s: &mut Script) {
    let empty = s.empty();
    s.fresh(3);
    s.keep((0, 2), 0, 17);
    s.seal((0, 3), 500, [16, 0, 8]);
    s.seal_bytes((3, 3), vec![0; 11], [0, 0, 8]);
    s.seal_on(259, (12, 3), 501, [0, 0, 8]);
    s.seal((4, 3), 501, [4097, 0, 8]);
    s.seal((5, 3), 501, [0, 65537, 65545]);
    s.seal((7, 3), 501, [0, 0, 7]);
    s.seal((9, 3), 500, [0, 0, 8]);
    s.keep((13, 3), 8, 0);
    s.keep((4, 3), 0, 4097);
    s.name_bytes((3, 3), 0, vec![0; 13], [0, 8]);
    s.name((13, 3), 1, 501, [0, 8]);
    s.name((7, 3), 0, 501, [0, 7]);
    s.name((9, 3), 0, 499, [0, 8]);
    s.seal((0, 3 + empty), 501, [0, 0, 8]);
    s.put(11, 3, Some(500));
    s.seal((1, 3), 501, [0, 0, 8]);
    s.keep((1, 3), 0, 0);
    s.name((1, 3), 0, 501, [0, 8]);
}
