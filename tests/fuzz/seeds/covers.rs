//! What the inputs that the fuzzer starts from must have.

use crate::shared::expected::{form, set, OPEN, SEAL};
use crate::shared::marks::ACTS;
use crate::{model, recipe, recipe_marks};
use std::collections::BTreeSet;

/// Every function has every answer that it can give, 0 and 8 in every set and form, and of marks under every key.
pub fn calls(inputs: &[Vec<u8>]) {
    let (of_marks, others): (Vec<_>, Vec<_>) = inputs
        .iter()
        .partition(|input| recipe_marks::calls(input).is_some());
    marks(&of_marks);
    let (mut answers, mut forms) = (BTreeSet::new(), BTreeSet::new());
    for call in others.iter().flat_map(|input| recipe::calls(input)) {
        answers.insert((call.act.name, call.answer));
        forms.extend(
            call.form()
                .map(|f| (call.act.name, call.set, f, call.answer)),
        );
    }
    let all = [SEAL, OPEN].map(|act| act.answers.iter().map(move |&a| (act.name, a)));
    let all: BTreeSet<_> = all.into_iter().flatten().collect();
    assert_eq!(answers, all, "other answers");
    assert_eq!(
        forms.len(),
        10 * 3 * 3,
        "sealed, opened and false in every set and form"
    );
}

fn marks(inputs: &[&Vec<u8>]) {
    let (mut answers, mut keys) = (BTreeSet::new(), BTreeSet::new());
    for call in inputs
        .iter()
        .filter_map(|input| recipe_marks::calls(input))
        .flatten()
    {
        answers.insert((call.act, call.answer));
        if matches!(call.answer, 0 | 8) {
            keys.insert((call.act, call.inputs[0].len(), call.answer));
        }
    }
    let all = ACTS.map(|act| {
        [&[0], &act.refusals()[..]]
            .concat()
            .into_iter()
            .map(move |a| (act, a))
    });
    let all: BTreeSet<_> = all.into_iter().flatten().collect();
    assert!(answers == all, "other answers about marks");
    assert_eq!(keys.len(), 3 * 3, "made, checked and false under every key");
}

/// Every answer that a line can have, and an accepted sealing and opening in every set and form.
pub fn hub(inputs: &[Vec<u8>]) {
    let (mut answers, mut accepted) = (BTreeSet::new(), BTreeSet::new());
    for input in inputs {
        for line in model::lines(input).skip(1) {
            let answer = model::answer(line);
            answers.insert(answer.answer);
            let words: Vec<_> = line.split(|&b| b == b' ').map(<[u8]>::to_vec).collect();
            if answer.answer == 0 {
                let number = String::from_utf8_lossy(&words[1])
                    .parse()
                    .expect("a number");
                let s = set(number).expect("a set");
                let tag = if words[0] == b"open" { 0 } else { s.t };
                let f = form(s, answer.result.len() - tag);
                accepted.insert((words[0].clone(), number, f));
            }
        }
    }
    let all = BTreeSet::from([0, 1, 2, 3, 6, 8, 11]);
    assert_eq!(answers, all, "other answers");
    assert_eq!(
        accepted.len(),
        2 * 10 * 3,
        "sealed and opened in every set and form"
    );
}
