//! A program that prints a line for each record: a run of it, its lines held to those that are expected, and what its
//! model is asked for.

use super::seed::wrong;
use std::fmt::Debug;
use std::io::Write;
use std::process::{Command, Stdio};

const SHOWN: usize = 5; // differences that are printed

/// What the program writes for the records, and whether it ended well.
pub fn output(program: &str, records: Vec<u8>) -> Result<(String, bool), String> {
    let mut child = Command::new(program)
        .stdin(Stdio::piped())
        .stdout(Stdio::piped())
        .spawn()
        .map_err(|e| format!("{program}: {e}"))?;
    let mut stdin = child.stdin.take().expect("a pipe");
    let writer = std::thread::spawn(move || stdin.write_all(&records));
    let done = child.wait_with_output().map_err(|e| e.to_string())?;
    // A program that stops early does not read all, and leaves lines out, which is a difference.
    let _ = writer.join().expect("a writer");
    let text = String::from_utf8_lossy(&done.stdout).into_owned();
    Ok((text, done.status.success()))
}

/// Compares the lines of lists, each of records and their lines. It prints the first that differ with their calls, and
/// counts the differences.
pub fn differences<R: Debug>(lists: &[(&[R], &[String])], found: &str) -> usize {
    let mut found_lines = found.lines();
    let mut count = 0;
    for (n, (records, lines)) in lists.iter().enumerate() {
        for (i, line) in lines.iter().enumerate() {
            let found = found_lines.next().unwrap_or("nothing");
            count += (found != line) as usize;
            if found != line && count <= SHOWN {
                let before = if i == 0 { "-" } else { &lines[i - 1] };
                eprintln!("list {}, call {}: {:?}", n + 1, i + 1, records[i]);
                eprintln!("  before   {before}\n  expected {line}\n  found    {found}");
            }
        }
    }
    count + found_lines.count()
}

/// What a model's arguments ask for: the script's records, its lines, or a run of a program, with a seed or without.
pub fn act(
    model: &str,
    records: fn() -> Vec<u8>,
    lines: fn() -> Vec<String>,
    run: fn(&str, Option<&str>) -> !,
) {
    let args: Vec<String> = std::env::args().skip(1).collect();
    let args: Vec<&str> = args.iter().map(|a| a.as_str()).collect();
    let bytes = match args[..] {
        ["stdin"] => records(),
        ["stdout"] => (lines().join("\n") + "\n").into_bytes(),
        ["run", program] => run(program, None),
        ["run", program, word] => run(program, Some(word)),
        _ => wrong(&format!(
            "usage: {model} stdin | stdout | run PROGRAM [SEED]"
        )),
    };
    let written = std::io::stdout().write_all(&bytes);
    written.unwrap_or_else(|e| wrong(&format!("{model}: {e}")));
}
