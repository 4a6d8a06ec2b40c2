//! A run of heartbeats, longer than the script of the gate: as many empty sealings as a ledger of set 1 has blocks, and
//! more, with answers and totals by hand from F-4.

use super::steps::Script;

const EMPTY: [usize; 3] = [0, 0, 4];
const MOST: u64 = 65536;

pub fn long_run() -> Script {
    let mut s = Script::new();
    s.lent = &[false, true];
    s.make(0, 1, 16);
    fills(&mut s, 0);
    older(&mut s);
    carried(&mut s);
    s
}

/// Each adds one until none is left.
fn fills(s: &mut Script, after: u64) {
    for i in 1..=MOST {
        s.seal((0, i), (after + i) as u128, EMPTY);
    }
    s.seal((10, MOST), (after + MOST + 1) as u128, EMPTY);
}

/// None is charged, and none refused.
fn older(s: &mut Script) {
    s.on_older(|s| s.fresh(1));
    for i in 1..=MOST + 1 {
        s.seal((0, 0), i as u128, EMPTY);
    }
}

/// Those before the carrying leave the whole capacity to those after it.
fn carried(s: &mut Script) {
    s.on_older(|s| s.fresh(1));
    for i in 1..=1000 {
        s.seal((0, 0), i, EMPTY);
    }
    s.carry(0);
    fills(s, 1000);
}
