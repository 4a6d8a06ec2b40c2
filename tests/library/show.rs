//! What is printed of calls.

use super::room::Input;
use super::test::Count;
use crate::shared::mode::bytes::to_hex;

pub fn show_inputs(inputs: [Input; 4], out: usize) {
    let [key, nonce, ..] = inputs.map(|input| to_hex(&input.bytes[..input.bytes.len().min(40)]));
    let [key_len, nonce_len, data_len, text_len] = inputs.map(|input| input.len);
    eprintln!("  key {key}, nonce {nonce}");
    eprintln!(
        "  bytes: key {key_len}, nonce {nonce_len}, data {data_len}, text {text_len}, out {out}"
    );
}

pub fn show_out(before: &[u8], after: &[u8], expected: &[u8], head: usize) {
    let Some(i) = (0..after.len()).find(|&i| after[i] != expected[i]) else {
        return;
    };
    let part = i..(i + 16).min(after.len());
    eprintln!(
        "  from byte {} of out: {}, expected {}, before the call {}",
        i as isize - head as isize,
        to_hex(&after[part.clone()]),
        to_hex(&expected[part.clone()]),
        to_hex(&before[part])
    );
}

/// The number of calls with each answer.
pub fn shown(count: &Count) -> String {
    let answers = (0..=8).filter(|&a| count.answers[a as usize] > 0);
    let shown = answers.map(|answer| {
        let sum = |f| {
            let of_form = count
                .forms
                .iter()
                .filter(|(key, _)| (key.0, key.2) == (answer, f));
            of_form.map(|(_, n)| n).sum::<usize>()
        };
        let number = count.answers[answer as usize];
        match [0, 1, 2].map(sum) {
            [0, 0, 0] => format!("answer {answer}: {number}"),
            [s, j, p] => format!("answer {answer}: {number} (short {s}, joined {j}, separate {p})"),
        }
    });
    shown.collect::<Vec<_>>().join(", ")
}
