//! What is printed of the random lists.

use super::seen::Seen;
use super::seen_window::Window;
use crate::shared::scripts::by_answer;

pub fn show(seen: &Seen) {
    println!(
        "receiver_model: makings, {}; hand-made: {}",
        by_answer(&seen.makings),
        seen.put
    );
    for (kind, counts) in ["made", "hand-made"].iter().zip(&seen.openings) {
        let calls: usize = counts.values().sum();
        println!(
            "receiver_model: {calls} openings on {kind} receivers, {}",
            by_answer(counts)
        );
    }
    println!(
        "receiver_model: accepted in sets 1 to 10, {:?}; {} pairs of refusals; plain opening, {}",
        seen.accepted,
        seen.pairs.len(),
        by_answer(&seen.plain)
    );
    show_window(&seen.window);
}

fn show_window(w: &Window) {
    println!(
        "receiver_model: accepted first {}, {} of them beside marks; above by 1, to 62, 63, 64, more, 2^32 or more \
         {:?}; below by 0, 1, to 61, 62, 63 {:?}",
        w.first, w.with_marks, w.rises, w.late
    );
    println!(
        "receiver_model: repeats of the highest, of others among the 64, 64 below, more {:?}; counters 0 and 2^64 - 1 \
         accepted {:?}; beside marks below 0 {}; after a false one {}; false ones far above {}",
        w.repeats, w.ends, w.below_0, w.after_false, w.false_above
    );
}
