//! The inputs that the fuzzer starts from, tests/fuzz/corpus: writes them, or checks that those in a folder have every
//! set, form, length of a mark's key and answer.
//!
//!     target/tests/fuzz_seeds write FOLDER
//!     target/tests/fuzz_seeds check FOLDER
//!
//! The exit status is 0, 2 where an argument is wrong, and another where something is missing or cannot be written.

#![allow(non_snake_case)] // the papers' names
#![allow(dead_code)] // of what the tests share

mod covers;
#[path = "../../hub_model/lines.rs"]
mod lines;
#[path = "../../hub_model/model.rs"]
mod model;
#[path = "../recipe.rs"]
mod recipe;
#[path = "../recipe_marks.rs"]
mod recipe_marks;
#[path = "../../shared/mod.rs"]
mod shared;

use lines::MALFORMED;
use model::{FIRST, LF, MOST_LINE};
use shared::expected::{form, sets, Set};
use shared::marks::KEYS;
use shared::random::Random;
use shared::seed::wrong;
use std::fs::{create_dir_all, read, read_dir, write};
use std::path::Path;

type Seeds = Vec<(String, Vec<u8>)>;

const FORMS: [&str; 3] = ["short", "joined", "separate"];

/// A message of each form.
fn of_form(s: Set, f: usize) -> usize {
    let message = [s.l, s.l + 17, s.l + 16][f];
    assert_eq!(form(s, message), f, "another form");
    message
}

/// An input of the library's: the places of recipe.rs that are not 0, for a message or a log of so many bytes.
fn seed(set: u32, message: usize, places: &[(usize, u8)]) -> Vec<u8> {
    let mut head = [0; recipe::HEAD];
    (head[0], head[6]) = (set as u8, message as u8);
    for &(place, byte) in places {
        head[place] = byte;
    }
    [&head, &b"a record of exercise"[..]].concat()
}

/// Name, set, bytes of the message, and the places that are not 0: what is refused, or just not.
const LIMITS: [(&str, u32, usize, &[(usize, u8)]); 16] = [
    ("no_set", 11, 20, &[]),
    ("set_by_8_bits", 245, 20, &[]),
    ("short_key", 3, 20, &[(1, 15)]),
    ("key_of_another_set", 3, 20, &[(1, 24)]),
    ("no_nonce", 3, 20, &[(2, 255)]),
    ("long_nonce", 3, 20, &[(2, 13)]),
    ("most_data", 3, 20, &[(3, 252), (4, 128)]),
    ("long_data", 3, 20, &[(3, 252), (4, 129)]),
    ("most_text", 3, 128, &[(5, 254)]),
    ("long_text", 3, 129, &[(5, 254)]),
    ("long_ciphertext", 3, 128, &[(5, 254), (7, 6), (9, 1)]),
    ("stub", 3, 20, &[(7, 5), (9, 7)]),
    ("empty_ciphertext", 3, 20, &[(7, 5)]),
    ("no_room", 3, 20, &[(10, 128), (11, 128)]),
    ("more_room", 3, 20, &[(10, 1), (11, 100)]),
    ("opened_as_another_set", 3, 20, &[(7, 8), (9, 4)]),
];

fn for_calls() -> Seeds {
    let mut seeds = vec![];
    for s in sets() {
        for (f, name) in FORMS.iter().enumerate() {
            let n = s.number;
            let message = of_form(s, f);
            let data = (4, [0, 5, 16][f]);
            seeds.push((format!("set_{n}_{name}"), seed(n, message, &[data])));
            let flipped = seed(n, message, &[data, (7, 1)]);
            seeds.push((format!("set_{n}_{name}_false"), flipped));
        }
    }
    seeds.extend(LIMITS.map(|(name, n, message, places)| (name.into(), seed(n, message, places))));
    seeds.extend(for_marks());
    seeds
}

/// Name, bytes of the log, and the places of recipe_marks.rs that are not 0.
const MARKS: [(&str, usize, &[(usize, u8)]); 16] = [
    ("no_key", 20, &[(1, 255), (2, 8)]),
    ("short_key", 20, &[(1, 15), (2, 8)]),
    ("most_log", 128, &[(5, 254), (2, 16)]),
    ("long_log", 129, &[(5, 254), (2, 16)]),
    ("of_no_bytes", 20, &[]),
    ("of_3_bytes", 20, &[(2, 3)]),
    ("of_17_bytes", 20, &[(2, 17)]),
    ("by_8_bits", 20, &[(2, 248)]),
    ("no_room", 20, &[(2, 8), (10, 128)]),
    ("more_room", 20, &[(2, 8), (10, 40)]),
    ("cut", 20, &[(2, 16), (7, 4), (9, 5)]),
    ("extended", 20, &[(2, 8), (7, 5), (9, 1)]),
    ("of_another_kind", 20, &[(2, 8), (7, 6), (9, 8)]),
    ("of_a_longer_log", 20, &[(2, 8), (7, 7), (9, 16)]),
    ("of_another_log", 20, &[(2, 8), (7, 2)]),
    ("of_another_key", 20, &[(2, 8), (7, 3)]),
];

/// Marks under a key of each length, of logs that end in a block and in a part of one, true and false.
fn for_marks() -> Seeds {
    let mut seeds = vec![];
    for (i, key) in KEYS.into_iter().enumerate() {
        let first = 228 + i as u32;
        for (log, mark) in [(0, 16), (5, 4), (16, 8), (40, 12)] {
            let name = format!("mark_{key}_log_{log}");
            seeds.push((
                format!("{name}_false"),
                seed(first, log, &[(2, mark), (7, 1)]),
            ));
            seeds.push((name, seed(first, log, &[(2, mark)])));
        }
    }
    let limits = MARKS.map(|(name, log, places)| (format!("mark_{name}"), seed(228, log, places)));
    seeds.extend(limits);
    seeds
}

/// A first line, and some more.
fn run_of(lines: Vec<Vec<u8>>) -> Vec<u8> {
    let first = [vec![FIRST.into()], lines].concat();
    [first.join(&LF), vec![LF]].concat()
}

fn for_hub() -> Seeds {
    let mut random = Random(1);
    let mut seeds: Seeds = vec![
        ("empty".into(), vec![]),
        ("first_line_alone".into(), FIRST.into()),
        ("first_line_wrong".into(), format!("{FIRST}\r\n").into()),
        (
            "document_01".into(),
            format!("{FIRST}\nseal 11 - - - -\nopen 3 00 - - -\n").into(),
        ),
    ];
    for s in sets() {
        let both = |f| {
            let sealing = random.sealing(s, [0, 5, 16][f], of_form(s, f));
            [sealing.line(), sealing.opening().line()]
        };
        let lines = [0, 1, 2].map(both).concat();
        seeds.push((format!("set_{}", s.number), run_of(lines)));
    }
    seeds.extend(other_lines(&mut random));
    seeds
}

fn other_lines(random: &mut Random) -> Seeds {
    let refused = (0..20).map(|_| random.refused().line()).collect();
    let damaged = (0..10).map(|_| random.damaged().line()).collect();
    let longest = [MOST_LINE - 1, MOST_LINE, MOST_LINE + 1].map(|n| random.of_length(n).line());
    let malformed = MALFORMED.iter().map(|(_, make)| {
        let words = random.accepted().words();
        make(random, words)
    });
    let malformed = malformed.filter(|line| line.len() < MOST_LINE).collect();
    let all = [
        ("refused", refused),
        ("damaged", damaged),
        ("longest_lines", longest.into()),
        ("malformed", malformed),
    ];
    all.map(|(name, lines)| (name.into(), run_of(lines))).into()
}

fn write_all(folder: &Path) {
    for (name, seeds) in [("calls", for_calls()), ("hub", for_hub())] {
        let folder = folder.join(name);
        create_dir_all(&folder).expect("a folder");
        for (file, seed) in seeds {
            write(folder.join(file), seed).expect("a file");
        }
    }
}

fn check_all(folder: &Path) {
    let parts: [(&str, fn(&[Vec<u8>])); 2] = [("calls", covers::calls), ("hub", covers::hub)];
    for (name, check) in parts {
        let files = read_dir(folder.join(name)).expect("a folder");
        let files = files.map(|file| read(file.expect("a file").path()).expect("a file"));
        let inputs: Vec<Vec<u8>> = files.collect();
        check(&inputs);
        let bytes: usize = inputs.iter().map(Vec::len).sum();
        println!(
            "fuzz_seeds: {name}: {} inputs, {bytes} bytes, with every set, form and answer",
            inputs.len()
        );
    }
}

fn main() {
    let args: Vec<String> = std::env::args().skip(1).collect();
    let args: Vec<&str> = args.iter().map(|a| a.as_str()).collect();
    match args[..] {
        ["write", folder] => write_all(Path::new(folder)),
        ["check", folder] => check_all(Path::new(folder)),
        _ => wrong("usage: fuzz_seeds write | check FOLDER"),
    }
}
