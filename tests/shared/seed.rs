//! The seed of a run, and its end where an argument is wrong.

use std::process::exit;
use std::time::{SystemTime, UNIX_EPOCH};

/// The seed in the word, or one from the clock. It is printed at once, so that a crash can be repeated too.
pub fn seed(program: &str, word: Option<&str>) -> u64 {
    let now = || {
        let since = SystemTime::now().duration_since(UNIX_EPOCH);
        since.expect("a time after 1970").as_nanos() as u64
    };
    let seed = word.map_or_else(now, |word| {
        let no_seed = || format!("{program}: {word} is no seed: a number below 2^64 is");
        word.parse().unwrap_or_else(|_| wrong(&no_seed()))
    });
    println!("{program}: seed {seed}");
    seed
}

pub fn wrong(why: &str) -> ! {
    eprintln!("{why}");
    exit(2)
}
