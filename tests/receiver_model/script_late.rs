//! The part of the script that is about late pieces, by hand from F-7.

use super::steps::Script;

/// A few counters, and those pairs of them of which the first is a repeat where the second came before it: it is then
/// 64 or more below.
type Few = (&'static [u64], &'static [(u64, u64)]);

const FEW: [Few; 3] = [
    (&[10, 11, 12], &[]),
    (&[100, 101, 163, 164], &[(100, 164)]),
    (&[0, 64, 65, 128], &[(0, 64), (0, 65), (0, 128), (64, 128)]),
];

pub fn late(s: &mut Script) {
    for (few, too_late) in FEW {
        for order in orders(few) {
            in_order(s, &order, too_late);
        }
    }
    s.set = 10;
    in_order(
        s,
        &[u64::MAX, u64::MAX - 63, u64::MAX - 1, 0],
        &[(0, u64::MAX)],
    );
    falling(s);
    s.set = 1;
}

/// All orders.
fn orders(of: &[u64]) -> Vec<Vec<u64>> {
    if of.is_empty() {
        return vec![vec![]];
    }
    let mut all = vec![];
    for (i, &first) in of.iter().enumerate() {
        let others = [&of[..i], &of[i + 1..]].concat();
        let after = orders(&others).into_iter();
        all.extend(after.map(|rest| [&[first], &rest[..]].concat()));
    }
    all
}

/// Each is accepted unless it comes too late, and none a second time.
#[track_caller]
fn in_order(s: &mut Script, order: &[u64], too_late: &[(u64, u64)]) {
    s.fresh();
    for (i, &n) in order.iter().enumerate() {
        let lost = order[..i].iter().any(|&m| too_late.contains(&(n, m)));
        s.open_empty(if lost { 15 } else { 0 }, n);
    }
    for &n in order {
        s.open_empty(15, n);
    }
}

/// From the highest of the 64 down to the last, and not one further.
fn falling(s: &mut Script) {
    s.fresh();
    for n in (1000..1064).rev() {
        s.open_empty(0, n);
        if n % 8 == 0 {
            s.open_empty(15, n);
        }
    }
    s.holds(1063, u64::MAX);
    s.open_empty(15, 999);
    s.open_empty(0, 1064);
    s.holds(1064, u64::MAX);
    s.open_empty(15, 1000);
}
