//! The rows of the summary rise by set number, in whatever order the sets come.

use super::compare::Bench;
use super::model::{FIRST, LF};
use crate::shared::expected::set;

/// Sets as numbers and as text rise differently: 10 comes after 9, and before 2 as text.
const SETS: [&[u32]; 4] = [&[10, 2, 9, 1], &[10, 1], &[2, 10, 3], &[10, 9, 8, 7, 1]];

/// All orders of some sets.
fn orders(sets: &[u32]) -> Vec<Vec<u32>> {
    if sets.is_empty() {
        return vec![vec![]];
    }
    let with = |i: usize| {
        let rest = [&sets[..i], &sets[i + 1..]].concat();
        let all = orders(&rest).into_iter();
        all.map(move |order| [vec![sets[i]], order].concat())
    };
    (0..sets.len()).flat_map(with).collect()
}

/// A line for each set of an order, the last one twice; a line that is refused stands among them and gives no row.
fn input(bench: &mut Bench, order: &[u32]) -> Vec<u8> {
    let mut lines: Vec<Vec<u8>> = vec![FIRST.into()];
    for &n in order.iter().chain(order.last()) {
        let s = set(n).expect("a set");
        lines.push(bench.random.sealing(s, 3, 7).line());
        lines.push(bench.random.damaged().line());
    }
    lines.join(&LF)
}

/// The rows by hand: each set of 1 to 10 that is in the order, and 2 for its last.
fn rows(order: &[u32]) -> String {
    let row = |n: &u32| format!("{n} {}\n", 1 + (order.last() == Some(n)) as u32);
    (1..=10).filter(|n| order.contains(n)).map(|n| row(&n)).collect()
}

pub fn orders_of_sets(bench: &mut Bench) -> Result<String, String> {
    let mut inputs = 0;
    for order in SETS.iter().flat_map(|sets| orders(sets)) {
        let input = input(bench, &order);
        let output = bench.same(&input)?;
        let end = format!("set accepted\n{}", rows(&order));
        if !output.ends_with(end.as_bytes()) {
            return Err(format!("{order:?}: the rows are not {:?}", rows(&order)));
        }
        inputs += 1;
    }
    Ok(format!("{inputs} inputs, with the rows by hand"))
}
