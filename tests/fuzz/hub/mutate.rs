//! Changes of an input by lines: one put in, taken out, repeated, or made into the opening of what it seals.

use crate::lines::{joined, Words, MALFORMED};
use crate::model::{answer, LF};
use crate::shared::mode::bytes::to_hex;
use crate::shared::random::Random;

pub fn lines_changed(random: &mut Random, input: &[u8]) -> Vec<u8> {
    let mut lines: Vec<Vec<u8>> = input
        .split(|&byte| byte == LF)
        .map(<[u8]>::to_vec)
        .collect();
    let i = random.below(lines.len());
    match random.below(6) {
        0 => drop(lines.remove(i)),
        1 => lines.insert(i, lines[i].clone()),
        2 => {
            let j = random.below(lines.len());
            lines.swap(i, j);
        }
        3 => lines[i] = opening(&lines[i]).unwrap_or_else(|| made(random)),
        4 => lines[i] = made(random),
        _ => lines.insert(i + 1, made(random)),
    }
    lines.join(&LF)
}

/// The line that opens what this one seals, where it does.
fn opening(line: &[u8]) -> Option<Vec<u8>> {
    let sealed = answer(line).result;
    let words = std::str::from_utf8(line).ok()?.split(' ').map(String::from);
    let mut words: Words = words.collect::<Vec<_>>().try_into().ok()?;
    if words[0] != "seal" || sealed.is_empty() {
        return None;
    }
    words[0] = "open".into();
    words[5] = to_hex(&sealed);
    Some(joined(words))
}

/// A line of any kind that the tests know.
fn made(random: &mut Random) -> Vec<u8> {
    match random.below(4) {
        0 => random.accepted().line(),
        1 => random.damaged().line(),
        2 => random.refused().line(),
        _ => {
            let words = random.accepted().words();
            (random.one_of(&MALFORMED).1)(random, words)
        }
    }
}
