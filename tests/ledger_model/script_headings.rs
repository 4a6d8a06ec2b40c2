//! The part of the script that is about what is kept under which name, by hand from F-3. Set 3 has tags of 8 bytes.

use super::model::Ledger;
use super::steps::Script;
use crate::shared::scripts::KEYS_AND_TAGS;

const ABOVE: [u32; 10] = [8, 9, 15, 16, 255, 256, 263, 65536, 1 << 31, u32::MAX];

pub fn headings(s: &mut Script) {
    s.console = 258;
    s.lent = &[false, true];
    every_set(s);
    lengths(s);
    above_7(s);
    replaced(s);
    refused_replacements(s);
    in_turn(s);
    all_eight(s);
    s.on_both(empty_data);
}

/// 17 bytes of data are two blocks, and so are 17 bytes of message; sealing charges for the message alone.
fn every_set(s: &mut Script) {
    for (set, (key, t)) in (1..).zip(KEYS_AND_TAGS) {
        s.make(0, set, key);
        s.name((13, 0), 3, 5, [17, 17 + t]);
        s.keep((0, 2), 3, 17);
        s.name((7, 2), 3, 5, [17, 17 + t - 1]);
        s.name((0, 4), 3, 5, [17, 17 + t]);
        s.name((9, 4), 3, 5, [17, 17 + t]);
        s.keep((0, 5), 3, 16);
        s.name((0, 8), 3, 6, [33, 33 + t + 3]);
    }
}

/// Data of each length, sealed with a message of each form, by name and then in ordinary sealings: the outputs are the
/// same.
fn lengths(s: &mut Script) {
    // Each with its charge by name, added up.
    let texts = [(0, 1), (17, 3), (32, 5)];
    // Each with the charge of a keeping, and the charges of ordinary sealings of these messages, added up.
    let data = [
        (0, 1, [1, 3, 5]),
        (1, 1, [1, 4, 7]),
        (15, 1, [1, 4, 7]),
        (16, 1, [1, 4, 7]),
        (17, 2, [2, 6, 10]),
        (4095, 256, [256, 514, 772]),
        (4096, 256, [256, 514, 772]),
    ];
    for (data, kept, totals) in data {
        s.make(0, 3, 16);
        s.keep((0, kept), 5, data);
        for (i, (text, sum)) in (1..).zip(texts) {
            s.name((0, kept + sum), 5, i, [text, text + 8]);
        }
        s.make(0, 3, 16);
        for (i, ((text, _), total)) in (1..).zip(texts.into_iter().zip(totals)) {
            s.seal((0, total), i, [data, text, text + 8]);
        }
        for before in 0..3 {
            assert_eq!(s.output(before), s.output(before + 4), "another sealing");
        }
    }
    s.make(0, 3, 16);
    for data in [4097, 4098, 8192] {
        s.keep((4, 0), 5, data);
    }
    s.name((13, 0), 5, 1, [17, 25]); // nothing was kept
}

/// Before something is kept, and after: some are 0 or 7 to who looks at some of the bits.
fn above_7(s: &mut Script) {
    s.make(0, 3, 16);
    for name in ABOVE {
        s.keep((13, 0), name, 16);
        s.name((13, 0), name, 1, [16, 24]);
    }
    s.keep((0, 1), 0, 1);
    s.keep_seed((0, 3), 7, 17, 9);
    for name in ABOVE {
        s.keep((13, 3), name, 16);
        s.name((13, 3), name, 1, [16, 24]);
    }
    s.name((0, 4), 0, 1, [16, 24]);
    s.name((0, 5), 7, 2, [16, 24]);
}

/// Keeping again replaces and charges again, the same data too.
fn replaced(s: &mut Script) {
    s.make(0, 3, 16);
    s.keep((0, 1), 2, 16);
    s.name((0, 2), 2, 1, [16, 24]);
    s.keep_seed((0, 5), 2, 33, 7);
    s.name((0, 6), 2, 2, [16, 24]);
    s.keep_seed((0, 9), 2, 33, 7);
    s.name((0, 10), 2, 3, [16, 24]);
    s.keep((0, 11), 2, 1);
    s.keep((0, 12), 2, 2);
    s.name((0, 13), 2, 4, [16, 24]);
}

/// A keeping that is refused by 4, 13, 10 or 1 leaves what was kept.
fn refused_replacements(s: &mut Script) {
    s.make(0, 3, 16);
    s.keep_seed((0, 2), 2, 20, 3);
    s.keep((4, 2), 2, 4097);
    s.name((0, 3), 2, 1, [16, 24]);
    for name in [10, 258, 65538] {
        s.keep((13, 3), name, 16);
    }
    s.name((0, 4), 2, 2, [16, 24]);
    s.put(3, 65530, Some(1));
    s.keep_seed((0, 65532), 2, 20, 3);
    s.keep((10, 65532), 2, 65); // 5 blocks
    s.name((0, 65533), 2, 2, [16, 24]);
    s.keep((10, 65533), 2, 4096);
    s.keep((4, 65533), 2, 4097);
    s.name((0, 65534), 2, 3, [1, 9]);
    let kept = s.ledger.clone();
    s.put_back(Ledger { set: 11, ..kept });
    s.keep((1, 65534), 2, 1);
    let kept = s.ledger.clone();
    s.put_back(Ledger { set: 3, ..kept });
    s.name((0, 65535), 2, 4, [1, 9]);
}

/// Two names with different data.
fn in_turn(s: &mut Script) {
    s.make(0, 3, 16);
    s.keep_seed((0, 1), 1, 16, 10);
    s.keep_seed((0, 3), 2, 17, 20);
    for (name, total) in [(1, 4), (2, 5), (1, 6), (2, 7), (2, 8), (1, 9)] {
        s.name((0, total), name, total as u128, [8, 16]);
    }
    s.keep_seed((0, 10), 1, 16, 20);
    s.name((0, 11), 2, 10, [8, 16]);
    s.name((0, 12), 1, 11, [8, 16]);
}

/// Name n gets n + 1 blocks. Then one of them is replaced, and the names beside it are as they were.
fn all_eight(s: &mut Script) {
    s.make(0, 3, 16);
    let (mut before, totals) = (0, [1, 3, 6, 10, 15, 21, 28, 36]);
    for (name, total) in (0..).zip(totals) {
        s.name((13, before), name, 0, [16, 24]);
        s.keep_seed((0, total), name, 16 * name as usize + 1, 40 + name as u8);
        before = total;
    }
    for (name, total) in (0..8).rev().zip(37..) {
        s.name((0, total), name, total as u128, [16, 24]);
    }
    s.keep((0, 45), 3, 16);
    for (name, total) in [(2, 46), (3, 47), (4, 48)] {
        s.name((0, total), name, total as u128, [16, 24]);
    }
}

/// Empty data are kept. Before, there is nothing.
fn empty_data(s: &mut Script) {
    let empty = s.empty();
    s.fresh(3);
    s.name((13, 0), 4, 0, [0, 8]);
    s.keep((0, empty), 4, 0);
    s.name((13, empty), 3, 0, [0, 8]);
    s.name((13, empty), 5, 0, [0, 8]);
    s.name((0, 2 * empty), 4, 0, [0, 8]);
    s.name((0, 1 + 2 * empty), 4, 1, [16, 24]);
    s.keep((0, 2 + 2 * empty), 4, 16);
    s.name((0, 2 + 3 * empty), 4, 2, [0, 8]);
    s.keep((0, 2 + 4 * empty), 4, 0);
    s.name((0, 2 + 5 * empty), 4, 3, [0, 8]);
}
