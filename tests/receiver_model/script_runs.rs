//! The part of the script that is about long runs, by hand from F-7.

use super::steps::Script;

pub fn runs(s: &mut Script) {
    rising(s);
    with_gaps(s);
}

/// Counters 0 to 199 in order, each of which leaves itself and the 63 before it marked.
fn rising(s: &mut Script) {
    s.fresh();
    for n in 0..200 {
        s.open_empty(0, n);
        let marks = if n < 63 { (1 << (n + 1)) - 1 } else { u64::MAX };
        s.holds(n, marks);
        if n % 4 == 0 {
            s.open_empty(15, n);
            s.open_empty(15, n.saturating_sub(63));
        }
    }
}

/// Each is so much above the one before, and then comes the one just below it. Each gap from 60 on, and the marks
/// after it: both of the one before, where the gap leaves them among the 64.
const WIDE: [(u64, u64); 11] = [
    (60, 0x3000_0000_0000_0003),
    (61, 0x6000_0000_0000_0003),
    (62, 0xc000_0000_0000_0003),
    (63, 0x8000_0000_0000_0003),
    (64, 0b11),
    (65, 0b11),
    (66, 0b11),
    (67, 0b11),
    (68, 0b11),
    (69, 0b11),
    (70, 0b11),
];

fn with_gaps(s: &mut Script) {
    let mut n = 10;
    s.fresh();
    s.open_empty(0, n);
    for gap in 1..=70 {
        let before = n;
        n += gap;
        s.open_empty(0, n);
        s.open_empty(15, before); // accepted, however wide the gap
        s.open_empty(if gap == 1 { 15 } else { 0 }, n - 1);
        if let Some((_, marks)) = WIDE.iter().find(|(wide, _)| *wide == gap) {
            s.holds(n, *marks);
        }
    }
}
