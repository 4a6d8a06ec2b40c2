//! What a run tried.

use crate::shared::marks::{Act, ACTS, KEYS, MARKS, MOST_LOG};
use std::collections::{BTreeMap, BTreeSet};

#[derive(Default)]
pub struct Seen {
    /// Codes that the second implementation and libgcrypt were asked for.
    pub codes: usize,
    answers: BTreeMap<(Act, u32), usize>,
    /// The refusals that apply to one call.
    faults: BTreeSet<(Act, Vec<u32>)>,
    /// The lengths of key and log where a call is accepted.
    logs: BTreeSet<(Act, usize, usize)>,
    /// The lengths of key and mark, and the answer.
    marks: BTreeSet<(Act, usize, usize, u32)>,
    /// The lengths of marks at which 14 meets 7 and no other.
    no_room: BTreeSet<usize>,
    /// The places of key, log, mark and output that were NULL.
    nulls: BTreeSet<(Act, usize)>,
}

impl Seen {
    pub fn call(&mut self, act: Act, [key, log, mark]: [usize; 3], faults: &[u32]) {
        let answer = faults.first().copied().unwrap_or(0);
        *self.answers.entry((act, answer)).or_default() += 1;
        self.faults.insert((act, faults.to_vec()));
        self.marks.insert((act, key, mark, answer));
        if faults.is_empty() {
            self.logs.insert((act, key, log));
        }
        if faults == [14, 7] {
            self.no_room.insert(mark);
        }
    }

    /// The lengths of key, log, mark and output, where what is empty is NULL.
    pub fn nulls(&mut self, act: Act, lengths: [usize; 4]) {
        let empty = (0..4).filter(|&i| lengths[i] == 0);
        self.nulls.extend(empty.map(|i| (act, i)));
    }

    /// The number of calls with each answer, and what else was counted.
    pub fn show(&self, program: &str) {
        for act in ACTS {
            let of_act = self.answers.iter().filter(|((a, _), _)| *a == act);
            let calls: usize = of_act.clone().map(|(_, n)| n).sum();
            let answers = of_act.map(|((_, answer), n)| format!("answer {answer}: {n}"));
            let answers = answers.collect::<Vec<_>>().join(", ");
            let together = self.faults.iter().filter(|(a, f)| *a == act && f.len() > 1);
            let together = together.count();
            println!(
                "{program}: {}, {calls} calls; {answers}; {together} choices of two or more faults",
                act.name()
            );
        }
        println!(
            "{program}: 14 with 7 at {} lengths of marks; {} codes, each by libgcrypt too",
            self.no_room.len(),
            self.codes
        );
    }

    /// A run that did not try what it is there for is worth nothing.
    pub fn all(&self, bad_marks: &[usize]) {
        for act in ACTS {
            for answer in [&[0], &act.refusals()[..]].concat() {
                let seen = self.answers.contains_key(&(act, answer));
                assert!(seen, "{} never answers {answer}", act.name());
            }
            self.every_choice(act);
            // A making has no mark, and a checking no output.
            let last = if act == Act::Make { 3 } else { 2 };
            for place in [0, 1, last] {
                assert!(self.nulls.contains(&(act, place)), "never NULL");
            }
            for key in KEYS {
                self.every_length(act, key);
                self.every_bad_length(act, key, bad_marks);
            }
        }
        // No output is shorter than no mark.
        for mark in bad_marks.iter().filter(|&&n| n > 0) {
            assert!(self.no_room.contains(mark), "no 14 with 7 at {mark}");
        }
    }

    /// Every choice of the four refusals, from none to all.
    fn every_choice(&self, act: Act) {
        for choice in 0..16 {
            let refusals = act.refusals().into_iter().enumerate();
            let chosen = refusals.filter(|(i, _)| choice >> i & 1 == 1);
            let faults: Vec<u32> = chosen.map(|(_, refusal)| refusal).collect();
            assert!(
                self.faults.contains(&(act, faults.clone())),
                "{} never meets {faults:?}",
                act.name()
            );
        }
    }

    /// Every length of a mark that must be refused, under a key of one length.
    fn every_bad_length(&self, act: Act, key: usize, bad_marks: &[usize]) {
        for &mark in bad_marks {
            let seen = self.marks.contains(&(act, key, mark, 14));
            assert!(seen, "no mark of {mark} bytes with 14, a key of {key}");
        }
    }

    /// Every length of log and of mark, under a key of one length.
    fn every_length(&self, act: Act, key: usize) {
        for log in (0..=600).chain([MOST_LOG - 1, MOST_LOG]) {
            let seen = self.logs.contains(&(act, key, log));
            assert!(seen, "no log of {log} bytes, a key of {key}");
        }
        let last = if act == Act::Make { 7 } else { 8 };
        for mark in MARKS {
            for answer in [0, last] {
                let seen = self.marks.contains(&(act, key, mark, answer));
                assert!(
                    seen,
                    "no mark of {mark} bytes with {answer}, a key of {key}"
                );
            }
        }
    }
}
