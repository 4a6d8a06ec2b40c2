//! What is printed of the random lists.

use super::seen::{Calls, Seen};
use super::seen_headings::Headings;
use super::seen_heartbeats::Heartbeats;
use crate::shared::scripts::by_answer;

const CHARGES: [&str; 2] = ["older", "newer"];

pub fn show(seen: &Seen) {
    println!(
        "ledger_model: makings, {}; hand-made: {}, held: {}",
        by_answer(&seen.makings),
        seen.put,
        seen.held
    );
    for (charge, calls) in CHARGES.iter().zip(&seen.calls) {
        show_calls(charge, calls);
    }
    println!(
        "ledger_model: last nonce of another console, {}",
        by_answer(&seen.other_last)
    );
    show_headings(&seen.headings);
    show_heartbeats(&seen.heartbeats);
}

fn show_calls(charge: &str, seen: &Calls) {
    let kinds = [
        "sealings by value",
        "sealings on a lent ledger",
        "keepings",
        "sealings by name",
    ];
    for (kind, counts) in kinds.iter().zip(&seen.answers) {
        let calls: usize = counts.values().sum();
        println!(
            "ledger_model: on {charge} ledgers {calls} {kind}; {}",
            by_answer(counts)
        );
    }
    for (kind, seen) in ["sealings", "keepings", "sealings by name"]
        .iter()
        .zip(&seen.kinds)
    {
        println!(
            "ledger_model: on {charge} ledgers {kind}, {} pairs of refusals, {} sums of 2^64 or more",
            seen.pairs.len(),
            seen.above_2_64
        );
    }
}

fn show_headings(h: &Headings) {
    println!(
        "ledger_model: sealed under names 0 to 7, {:?}; replaced {}, {} by the same, before the first nonce {}",
        h.sealed, h.replaced, h.again, h.before_nonces
    );
    println!(
        "ledger_model: sealed after a refused keeping, {}; empty data {}, hand-made sums {}",
        by_answer(&h.after_refusal),
        h.empty,
        h.by_hand
    );
    println!(
        "ledger_model: 13 in sealings, above 7 {}, nothing {}, no flag {}; in keepings {}",
        h.refused_for[0], h.refused_for[1], h.refused_for[2], h.kept_above_7
    );
}

fn show_heartbeats(h: &Heartbeats) {
    let [older, newer] = h.accepted;
    println!(
        "ledger_model: empty sealings, keepings and sealings by name, accepted on older ledgers {older:?}, {:?} on \
         full ones; on newer ledgers {newer:?}, {:?} filling them, refused with 10 {:?}",
        h.on_full, h.filling, h.spent
    );
    let [of_older, of_newer] = h.refused;
    println!(
        "ledger_model: carryings of older ledgers {}, refused {of_older}; of newer ones {}, refused {of_newer}",
        h.carried, h.again
    );
}
