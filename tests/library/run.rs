//! A run: its arguments, its parts, and what it must have had.

use super::show::shown;
use super::test::Test;
use crate::shared::expected::Act;
use crate::shared::seed::{seed, wrong};
use std::process::exit;
use std::time::Instant;

/// Calls what the files have, then what the parts say, and ends with the exit status: 0 where there is no
/// difference, 1 where there is one, 2 where an argument or a file is wrong. `least` is the least number of calls
/// of the function that a run without files has.
pub fn run(program: &str, act: &Act, least: usize, parts: &[fn(&mut Test)]) -> ! {
    let args: Vec<String> = std::env::args().skip(1).collect();
    let args: Vec<&str> = args.iter().map(|a| a.as_str()).collect();
    let (word, files) = match args[..] {
        [] => (None, None),
        [word] => (Some(word), None),
        [file_in, file_out] => (None, Some((file_in, file_out))),
        [word, file_in, file_out] => (Some(word), Some((file_in, file_out))),
        _ => wrong(&format!("usage: {program} [SEED] [FILE_IN FILE_OUT]")),
    };
    let mut test = Test::new(seed(program, word));
    let start = Instant::now();

    let called = files.map_or(0, |(file_in, file_out)| {
        let called = test.vectors(act, file_in, file_out);
        called.unwrap_or_else(|why| wrong(&format!("{program}: {why}")))
    });
    for part in parts {
        part(&mut test);
        // What is wrong here may read what is not there in the next part.
        if test.differences != 0 {
            break;
        }
    }

    for (name, count) in &test.counts {
        println!("{program}: {name}, {} calls; {}", count.calls, shown(count));
    }
    println!(
        "{program}: {called} calls from the files; {} differences; {:.1} s",
        test.differences,
        start.elapsed().as_secs_f64()
    );
    if test.differences != 0 {
        exit(1);
    }
    let count = &test.counts[act.name];
    assert!(count.calls - called >= least, "too few calls");
    for &answer in act.answers {
        let seen = count.answers[answer as usize];
        assert!(seen > 0, "no call had answer {answer}");
        for number in 1..=10 {
            let all = (0..3).all(|f| count.forms.contains_key(&(answer, number, f)));
            let of_forms = answer == 0 || answer == 8;
            assert!(all || !of_forms, "set {number} has no {answer} in a form");
        }
    }
    exit(0)
}
