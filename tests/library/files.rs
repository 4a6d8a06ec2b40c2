//! The calls that two files have.

use super::room::whole;
use super::test::Test;
use crate::shared::expected::{set, Act};
use crate::shared::mode::bytes::from_hex;
use std::array::from_fn;

impl Test {
    /// The calls of one function in two files: lines `act set key nonce data text`, and lines `line answer
    /// result`. Answer 11 is about the line and is left out.
    pub fn vectors(&mut self, act: &Act, file_in: &str, file_out: &str) -> Result<usize, String> {
        let read = |name| std::fs::read_to_string(name).map_err(|e| format!("{name}: {e}"));
        let (text_in, text_out) = (read(file_in)?, read(file_out)?);
        let (mut lines_in, mut lines_out) = (text_in.lines(), text_out.lines());
        if lines_in.next() != Some("act set key nonce data text") {
            return Err(format!("{file_in}: another first line"));
        }
        if lines_out.next() != Some("line answer result") {
            return Err(format!("{file_out}: another first line"));
        }
        let mut called = 0;
        for (i, line) in lines_in.enumerate() {
            let words: Vec<&str> = lines_out.next().unwrap_or("").split(' ').collect();
            let (answer, result) = match words[..] {
                [n, answer, result] if n == (i + 1).to_string() => (answer, result),
                _ => return Err(format!("{file_out}: not the answer to line {}", i + 1)),
            };
            let first = line.split(' ').next().unwrap_or("");
            if act.name != format!("cba_{first}") || answer == "11" {
                continue;
            }
            self.vector(act, line, answer, result)
                .ok_or_else(|| format!("line {}: not a call and its answer", i + 1))?;
            called += 1;
        }
        Ok(called)
    }

    fn vector(&mut self, act: &Act, line: &str, answer: &str, result: &str) -> Option<()> {
        let [_, number, inputs @ ..] = &line.split(' ').collect::<Vec<_>>()[..] else {
            return None;
        };
        let number = number.parse().ok()?;
        let inputs: Result<Vec<Vec<u8>>, _> = inputs.iter().map(|word| from_hex(word)).collect();
        let inputs: [Vec<u8>; 4] = inputs.ok()?.try_into().ok()?;
        let answer = answer.parse().ok().filter(|a| act.answers.contains(a))?;
        let text = inputs[3].len();
        let result = match answer {
            8 => vec![0; (act.result_len)(set(number)?, text)],
            _ => from_hex(result).ok()?,
        };
        let out = text + 16 + self.random.below(20);
        let inputs = from_fn(|i| whole(&inputs[i]));
        self.call(act, number, inputs, out, (answer, &result));
        Some(())
    }
}
