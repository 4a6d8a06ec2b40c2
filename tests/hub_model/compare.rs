//! Holds what the program writes to what the model writes, byte by byte.

use super::model::{self, LF};
use super::pipes::{command, run, Pipe, Run};
use crate::shared::random::Random;

pub struct Bench {
    pub program: String,
    pub random: Random,
    /// The part of the test, by which a file is named.
    pub part: &'static str,
}

/// A line as it is shown, and no more than its start.
fn shown(line: Option<&&[u8]>) -> String {
    line.map_or("nothing".into(), |line| {
        let start = &line[..line.len().min(160)];
        let more = if start.len() < line.len() { ".." } else { "" };
        format!("\"{}{more}\"", start.escape_ascii())
    })
}

/// The first line of the output that differs, with the line of the input that it answers: the output has a heading
/// where the input has its first line.
fn difference(input: &[u8], expected: &[u8], found: &[u8]) -> Option<String> {
    if expected == found {
        return None;
    }
    let [expected, found] = [expected, found].map(|output| {
        let lines = output.split_inclusive(|&byte| byte == LF);
        lines.collect::<Vec<_>>()
    });
    let most = expected.len().max(found.len());
    let i = (0..most).find(|&i| expected.get(i) != found.get(i))?;
    let input = shown(model::lines(input).nth(i).as_ref());
    let [expected, found] = [expected, found].map(|lines| shown(lines.get(i)));
    Some(format!(
        "input    {input}\n  expected {expected}\n  found    {found}"
    ))
}

impl Bench {
    /// Runs the program on the input, whole, and returns what was expected and found.
    pub fn same(&self, input: &[u8]) -> Result<Vec<u8>, String> {
        let expected = model::output(input);
        self.same_fed(input, &expected, |pipe| pipe.write(input))?;
        Ok(expected)
    }

    /// Runs it on an input that is written by `feed`.
    pub fn same_fed<T: Send>(
        &self,
        input: &[u8],
        expected: &[u8],
        feed: impl FnOnce(&mut Pipe) -> T + Send,
    ) -> Result<T, String> {
        let run = run(command(&self.program, None), true, feed)?;
        self.same_run(input, expected, run)
    }

    pub fn same_run<T>(&self, input: &[u8], expected: &[u8], run: Run<T>) -> Result<T, String> {
        let ended = match run.ended {
            Ok(status) if status.success() => None,
            Ok(status) => Some(format!("it ended with {status}")),
            Err(why) => Some(why),
        };
        let difference = difference(input, expected, &run.output);
        let why: Vec<String> = difference.into_iter().chain(ended).collect();
        match why.is_empty() {
            true => Ok(run.fed),
            false => Err(format!("{}\n  {}", why.join("\n  "), self.saved(input))),
        }
    }

    /// Keeps an input at which there is a difference; of a very long one, the short one that stands for it.
    fn saved(&self, input: &[u8]) -> String {
        let name = format!("target/tests/hub_{}.in", self.part.replace(' ', "_"));
        match std::fs::write(&name, input) {
            Ok(()) => format!("the input is in {name}"),
            Err(why) => format!("{name}: {why}"),
        }
    }
}
