//! Inputs on which the program and the model must agree.

use super::compare::Bench;
use super::inputs::{input, noise, Seen};
use super::model::{self, FIRST, LF, MOST_LINES};
use super::pipes::{command, run};
use crate::shared::expected::{set, sets};

const INPUTS: usize = 2000;
const IN_PIECES: usize = 40; // of the random inputs
const SHORT: usize = 8000; // bytes of an input that is read byte by byte

pub fn random_inputs(bench: &mut Bench) -> Result<String, String> {
    let mut seen = Seen::default();
    for _ in 0..INPUTS {
        let input = input(&mut bench.random, &mut seen);
        seen.output(&bench.same(&input)?);
    }
    seen.all()?;
    let answers = seen.answers.iter().map(|(a, n)| format!("answer {a}: {n}"));
    let answers = answers.collect::<Vec<_>>().join(", ");
    let (lines, kinds) = (seen.lines, seen.kinds());
    Ok(format!(
        "{INPUTS} inputs, {lines} lines of {kinds} kinds; {answers}"
    ))
}

// ---------------------------------------------------------------------------
// Pieces.

/// However the input is cut, and from a file, the output is the same.
pub fn pieces(bench: &mut Bench) -> Result<String, String> {
    let name = "tests/vectors/cba.in";
    let mut inputs = vec![std::fs::read(name).map_err(|e| format!("{name}: {e}"))?];
    while inputs.len() <= IN_PIECES {
        let input = input(&mut bench.random, &mut Seen::default());
        inputs.extend(Some(input).filter(|input| input.len() <= SHORT));
    }
    for input in &inputs {
        let expected = model::output(input);
        for size in [1, 7, 4096] {
            bench.same_fed(input, &expected, |pipe| pipe.write_pieces(input, size))?;
        }
        bench.same(input)?;
        from_file(bench, input)?;
    }
    let ends = line_ends(bench)?;
    Ok(format!(
        "{} inputs by 1, 7 and 4096 bytes, whole and from a file; {ends} places of an LF near a power of 2",
        inputs.len()
    ))
}

fn from_file(bench: &Bench, input: &[u8]) -> Result<(), String> {
    let name = "target/tests/hub_file.in";
    std::fs::write(name, input).map_err(|e| format!("{name}: {e}"))?;
    let shell = format!("exec \"$0\" <{name}");
    let run = run(command(&bench.program, Some(&shell)), true, |_| ())?;
    bench.same_run(input, &model::output(input), run)
}

/// An LF just before, at and after the places at which a buffer may end, from a file, which fills a buffer.
fn line_ends(bench: &mut Bench) -> Result<usize, String> {
    let mut count = 0;
    for power in 9..=17 {
        for place in (1 << power) - 2..=(1 << power) + 2 {
            let mut input = format!("{FIRST}\n").into_bytes();
            while input.len() < place {
                let line = (place - input.len()).min(1 + bench.random.below(700));
                input.extend(vec![b'0'; line - 1]);
                input.push(LF);
            }
            input.extend(bench.random.accepted().line());
            from_file(bench, &input)?;
            count += 1;
        }
    }
    Ok(count)
}

// ---------------------------------------------------------------------------
// Numbers of lines.

/// 9,999 lines are answered and none after them, of whatever kind they are.
pub fn counts(bench: &mut Bench) -> Result<String, String> {
    let totals = [9998, 9999, 10_000, 10_001, 12_000];
    let mut inputs = 0;
    for total in totals {
        for end in ["", "\n"] {
            let lines: Vec<_> = (1..=total).map(|n| counted_line(bench, n)).collect();
            let input = [FIRST.as_bytes(), b"\n", &lines.join(&LF), end.as_bytes()].concat();
            bench.same(&input)?;
            let empty = [FIRST, &"\n".repeat(total), end].concat();
            bench.same(empty.as_bytes())?;
            inputs += 2;
        }
    }
    all_accepted(bench)?;
    let endless = endless(bench)?;
    Ok(format!(
        "{inputs} inputs of {totals:?} lines, one of 9999 that are accepted; {endless}"
    ))
}

/// Those about the last are accepted, each in another set, so that one more or fewer changes the summary.
fn counted_line(bench: &mut Bench, number: usize) -> Vec<u8> {
    let last = MOST_LINES - 4..=MOST_LINES + 5;
    match number {
        n if last.contains(&n) => {
            let s = set((n - last.start() + 1) as u32).expect("ten sets");
            bench.random.sealing(s, 1, 5).line()
        }
        n if n % 100 == 0 => bench.random.accepted().line(),
        n => "x".repeat(n % 3).into(),
    }
}

fn all_accepted(bench: &mut Bench) -> Result<Vec<u8>, String> {
    let s = set(8).expect("ten sets"); // the short form has no message here, and the result is the tag
    let mut lines = vec![FIRST.into()];
    lines.extend((0..MOST_LINES).map(|_| bench.random.sealing(s, 0, 0).line()));
    bench.same(&lines.join(&LF))
}

/// Where no more is read, the program ends though its input does not.
fn endless(bench: &mut Bench) -> Result<String, String> {
    const MOST: usize = 64 << 20;
    let good = [bench.random.accepted().line(), vec![LF]].concat();
    for first in [FIRST, "another first line"] {
        let mut input = format!("{first}\n").into_bytes();
        input.extend(good.repeat(MOST_LINES + 1));
        let expected = model::output(&input);
        let more = good.repeat(100);
        let ended = bench.same_fed(&input, &expected, |pipe| {
            pipe.write(format!("{first}\n").as_bytes());
            pipe.until_it_ends(&more, MOST)
        })?;
        if !ended {
            return Err(format!("it read {MOST} bytes after {first:?}"));
        }
    }
    Ok("2 inputs without an end".into())
}

// ---------------------------------------------------------------------------
// Noise.

pub fn any_bytes(bench: &mut Bench) -> Result<String, String> {
    let sizes = [1, 2, 27, 100, 1000, 4096, 4097, 10_000, 100_000, 3_000_000];
    let mut inputs = 0;
    for size in sizes {
        for like_lines in [false, true] {
            let bytes = noise(&mut bench.random, size, like_lines);
            bench.same(&bytes)?;
            bench.same(&[FIRST.as_bytes(), &bytes].concat())?;
            bench.same(&[FIRST.as_bytes(), b"\n", &bytes].concat())?;
            inputs += 3;
        }
    }
    // A good line after noise is answered.
    for s in sets() {
        let noise = noise(&mut bench.random, 5000, false);
        let good = bench.random.sealing(s, 3, 20).opening().line();
        bench.same(&[FIRST.as_bytes(), b"\n", &noise, b"\n", &good].concat())?;
        inputs += 1;
    }
    Ok(format!("{inputs} inputs of up to 3000000 bytes"))
}
