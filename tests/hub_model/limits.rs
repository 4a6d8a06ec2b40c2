//! Lines that do not fit into memory, and outputs that nobody reads.

use super::compare::Bench;
use super::model::{self, FIRST, LF, MOST_LINE, MOST_LINES};
use super::pipes::{command, run, Pipe};

const GIB: usize = 1 << 30;
const MORE: usize = 4096; // KiB that a run may have more than one on no input

/// Lines of 1 GiB, and many lines, are read in no more memory than nothing is.
pub fn memory(bench: &mut Bench) -> Result<String, String> {
    let (_, least) = peak(bench, b"", |_| ())?;
    let least = least.ok_or("no memory on no input: it ended")?;
    let good = bench.random.any_sealing().opening().line();
    let first = format!("{FIRST}\n").into_bytes();

    // What a shorter input of the same kind gives is expected of these.
    let long = vec![b'a'; MOST_LINE + 1];
    let (first_gib, p) = peak(bench, &long, long_line)?;
    let mut peaks = vec![p];
    let input = [&first[..], &long, &[LF], &good].concat();
    let (second_gib, p) = peak(bench, &input, |pipe| {
        pipe.write(&first);
        long_line(pipe);
        pipe.write(&[&[LF], &good[..]].concat());
    })?;
    peaks.push(p);
    let lines = [&long[..MOST_LINE], &[LF]].concat().repeat(MOST_LINES - 1);
    let input = [&first[..], &lines, &good].concat();
    let (_, p) = peak(bench, &input, |pipe| pipe.write(&input))?;
    peaks.push(p);

    // A program that ended before the end of its input had read all that it needs.
    let most = *peaks.iter().flatten().max().unwrap_or(&least);
    if most > least + MORE {
        return Err(format!("{peaks:?} KiB; on no input {least} KiB"));
    }
    Ok(format!(
        "1 GiB in the first line ({first_gib:.1} s), 1 GiB in the second ({second_gib:.1} s), {MOST_LINES} lines of \
         {MOST_LINE} bytes: at most {most} KiB, on no input {least} KiB"
    ))
}

fn long_line(pipe: &mut Pipe) {
    pipe.until_it_ends(&vec![b'a'; 1 << 20], GIB);
}

/// Runs the program on what `feed` writes, for which the input stands: the seconds, and the most memory.
fn peak<T>(
    bench: &Bench,
    input: &[u8],
    feed: impl FnOnce(&mut Pipe) -> T + Send,
) -> Result<(f64, Option<usize>), String> {
    let start = std::time::Instant::now();
    let peak = bench.same_fed(input, &model::output(input), |pipe| {
        feed(pipe);
        pipe.peak()
    })?;
    Ok((start.elapsed().as_secs_f64(), peak))
}

/// A program that cannot write stops, though its input has no end. How it says so is left to it.
pub fn refused_output(bench: &mut Bench) -> Result<String, String> {
    const MOST: usize = 512 << 20;
    // Answers enough for a program that collects them before it writes, and a line that has no end.
    let start = format!("{FIRST}\n{}", "x\n".repeat(9000));
    let ways = [
        ("a pipe without a reader", "exec \"$0\""),
        ("the same, its signal ignored", "trap '' PIPE; exec \"$0\""),
        ("/dev/full", "exec \"$0\" >/dev/full"),
    ];
    for (what, shell) in ways {
        let command = command(&bench.program, Some(shell));
        let run = run(command, false, |pipe| {
            pipe.write(start.as_bytes());
            pipe.until_it_ends(&vec![b'a'; 1 << 16], MOST)
        })?;
        run.ended.map_err(|why| format!("{what}: {why}"))?;
        if !run.fed {
            return Err(format!("{what}: it read {MOST} bytes more"));
        }
    }
    let ways: Vec<&str> = ways.iter().map(|way| way.0).collect();
    Ok(format!("it stops at {}", ways.join(", ")))
}
