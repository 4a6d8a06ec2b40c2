//! The repository's lines from another implementation, tests/vectors/cba.in and cba.out: `act set key nonce data text`
//! and `line answer result`, in hex, `-` for empty.

use cba::{open, seal, Error};
use std::fs::read_to_string;

/// None for a word that is no hex: the line is malformed, which is not the library's to say.
fn from_hex(word: &str) -> Option<Vec<u8>> {
    if word == "-" {
        return Some(vec![]);
    }
    let byte = |i| u8::from_str_radix(word.get(i..i + 2)?, 16).ok();
    (0..word.len()).step_by(2).map(byte).collect()
}

fn call(line: &str) -> Option<Result<Vec<u8>, Error>> {
    let words: Vec<&str> = line.split(' ').collect();
    let values: Option<Vec<Vec<u8>>> = words.get(2..)?.iter().map(|word| from_hex(word)).collect();
    let set = words[1].parse().ok()?;
    match (words[0], &values?[..]) {
        ("seal", [key, nonce, data, text]) => Some(seal(set, key, nonce, data, text)),
        ("open", [key, nonce, data, text]) => Some(open(set, key, nonce, data, text)),
        _ => None,
    }
}

#[test]
fn results_of_another_implementation() {
    let file = |name| {
        let path = format!("{}/../../tests/vectors/{name}", env!("CARGO_MANIFEST_DIR"));
        read_to_string(&path).unwrap_or_else(|why| panic!("{path}: {why}"))
    };
    let (lines, answers) = (file("cba.in"), file("cba.out"));
    let (mut same, mut accepted) = (0, 0);
    for (line, answer) in lines.lines().zip(answers.lines()).skip(1) {
        let words: Vec<&str> = answer.split(' ').collect();
        if words[1] == "11" {
            continue; // a malformed line
        }
        let result = call(line).unwrap_or_else(|| panic!("not a call: {line}"));
        match result {
            Ok(bytes) => {
                assert_eq!((words[1], Some(bytes)), ("0", from_hex(words[2])), "{line}");
                accepted += 1;
            }
            Err(error) => assert_eq!(words[1], error.number().to_string(), "{line}"),
        }
        same += 1;
    }
    assert!(
        same > 500 && accepted > 300,
        "{same} lines, {accepted} accepted"
    );
}
