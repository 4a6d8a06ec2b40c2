//! The input of the gate. The answers, the messages that are opened and the counts in it are document 01's, by
//! hand; the model must agree.

use super::lines::Request;
use super::model::{self, FIRST, HEADING, LF, MOST_LINE, MOST_LINES, SUMMARY};
use crate::shared::expected::{form, set, sets, Set};
use crate::shared::mode::bytes::to_hex;

#[derive(Default)]
struct Script {
    lines: Vec<Vec<u8>>,
    /// The answer to each line, and the result where it is known.
    said: Vec<(u32, Option<Vec<u8>>)>,
}

const KEY: &str = "000102030405060708090a0b0c0d0e0f"; // of sets 1 to 8
const NONCE: &str = "a0a1a2a3a4a5a6a7a8a9aaab";
const GOOD: [&str; 6] = ["seal", "3", KEY, NONCE, "d0d1", "c0ffee"];
const SHORT_KEY: &str = "000102030405060708090a0b0c0d0e"; // 15 bytes
const LONG_KEY: &str = "000102030405060708090a0b0c0d0e0f1011121314151617"; // of set 9

/// The accepted lines of sets 1 to 10: eight each, three more of set 3 and two of set 1.
const ACCEPTED: [usize; 10] = [10, 8, 11, 8, 8, 8, 8, 8, 8, 8];

/// The bytes that the program reads and writes at once, and those that a line of output may need. It reads this
/// input from a file, so that each read but the last has so many.
const BUFFER: usize = 65_536;
const ROOM: usize = 4200;

/// What follows the last line that is read.
const NOT_READ: &[u8] = b"\nseal 11 - - - -\n";

/// The good words with another in one place.
fn with(i: usize, word: &str) -> String {
    let mut words = GOOD;
    words[i] = word;
    words.join(" ")
}

fn sealing(s: Set, data: usize, text: usize) -> Request {
    let bytes = |n: usize, from: usize| (0..n).map(|i| (from + 7 * i) as u8).collect();
    Request {
        act: "seal",
        set: s.number,
        values: [
            bytes(s.key, 0x11),
            bytes(12, 0xa0),
            bytes(data, 0xd0),
            bytes(text, 0x31),
        ],
    }
}

/// A sealing whose line has 4,095 or 4,096 bytes.
fn longest(set: Set, data: usize) -> Request {
    let short = sealing(set, data, 1).line().len();
    let long = sealing(set, data, 1 + (MOST_LINE - short) / 2);
    assert!(long.line().len() + 1 >= MOST_LINE, "a short line");
    long
}

/// A sealing whose opening's line is as long.
fn longest_opened(set: Set, data: usize) -> Request {
    let text = longest(set, data).values[3].len();
    sealing(set, data, text - set.t)
}

impl Script {
    fn line(&mut self, answer: u32, line: impl Into<Vec<u8>>) {
        self.lines.push(line.into());
        let refused = (answer != 0).then_some(vec![]);
        self.said.push((answer, refused));
    }

    /// The opening of what the sealing gives, which is its message.
    fn opens(&mut self, sealing: &Request) {
        self.lines.push(sealing.opening().line());
        self.said.push((0, Some(sealing.values[3].clone())));
    }

    fn input(&self) -> Vec<u8> {
        [FIRST.as_bytes(), &[LF], &self.lines.join(&LF)].concat()
    }

    /// Holds the model's output to what is said here.
    fn check(&self, output: &[u8]) {
        let output = String::from_utf8_lossy(output);
        let mut lines = output.lines().skip(1);
        for (i, (answer, result)) in self.said.iter().enumerate() {
            let line = lines.next().expect("a line");
            let start = format!("{} {answer} ", i + 1);
            let found = line.strip_prefix(&start);
            let found = found.unwrap_or_else(|| panic!("{start}is expected, and {line} is found"));
            let same = result.as_ref().map_or(true, |r| found == to_hex(r));
            assert!(same, "line {}: another result", i + 1);
        }
        let rows = (1..=10).map(|n| format!("{n} {}", ACCEPTED[n - 1]));
        let summary = ["set accepted".to_string()].into_iter().chain(rows);
        assert!(lines.eq(summary), "another summary");
    }
}

/// The input is longer than two reads. The first ends within a line that opens, and has answers for which the program
/// has no room at once; the second ends where a line does.
fn check_reads(input: &[u8]) {
    assert!(input.len() > 2 * BUFFER, "no third read");
    let read = &input[..BUFFER];
    let whole = read.iter().rposition(|&byte| byte == LF).expect("an LF");
    let crossing = model::lines(&input[whole + 1..]).next().expect("a line");
    assert!(crossing.starts_with(b"open 7 "), "another line crosses");
    assert!(whole + 1 + crossing.len() > BUFFER, "no line crosses");
    assert_eq!(model::answer(crossing).answer, 0, "it does not open");
    // After the answers to the whole lines the program has no room for another, and there is more of the read.
    let said = model::output(&read[..whole]);
    let mut places = said.windows(SUMMARY.len());
    let summary = places.position(|place| place == SUMMARY.as_bytes());
    let answers = summary.expect("a summary") - (HEADING.len() + 1);
    assert!(answers > BUFFER - ROOM, "room for all answers");
    assert!(whole + 1 < BUFFER, "nothing is left of the read");
    assert_eq!(input[2 * BUFFER - 1], LF, "the second read ends elsewhere");
}

/// The input and the output.
pub fn script() -> (Vec<u8>, Vec<u8>) {
    let mut s = Script::default();
    first_read(&mut s);
    every_set(&mut s);
    refusals(&mut s);
    false_ones(&mut s);
    words(&mut s);
    set_words(&mut s);
    hex_words(&mut s);
    lengths(&mut s);
    second_read(&mut s);
    last_line(&mut s);
    let input = [&s.input()[..], NOT_READ].concat();
    let output = model::output(&input);
    s.check(&output);
    check_reads(&input);
    (input, output)
}

/// Sealings with more answers than the program writes at once, and an opening that goes on into the second read.
fn first_read(s: &mut Script) {
    for set in sets() {
        s.line(0, longest(set, 0).line());
    }
    for set in sets().take(5) {
        s.line(0, longest(set, 17).line());
    }
    let [six, seven] = [6, 7].map(|n| set(n).expect("a set"));
    s.line(0, sealing(six, 0, 700).line());
    s.opens(&longest_opened(seven, 40));
}

/// Openings of long lines, some with long data, and a line that ends with the second read.
fn second_read(s: &mut Script) {
    for (number, data) in [(8, 0), (9, 1000), (10, 1920)] {
        s.opens(&longest_opened(set(number).expect("a set"), data));
    }
    let rest = 2 * BUFFER - (s.input().len() + 1); // LF ends the line before
    s.line(11, "0".repeat(rest - 1));
}

/// Empty lines up to the last that is read, which is good.
fn last_line(s: &mut Script) {
    while s.lines.len() + 1 < MOST_LINES {
        s.line(11, "");
    }
    s.line(0, GOOD.join(" "));
}

/// Sealing and opening in the short, the joined and the separate form.
fn every_set(s: &mut Script) {
    for set in sets() {
        let messages = [set.l, set.l + 17, set.l + 16];
        for (i, message) in messages.into_iter().enumerate() {
            assert_eq!(form(set, message), i, "another form");
            let sealing = sealing(set, [0, 5, 16][i], message);
            s.line(0, sealing.line());
            s.opens(&sealing);
        }
    }
}

/// Each refusal, and each before the next.
fn refusals(s: &mut Script) {
    s.line(1, "seal 11 - - - -"); // document 01's two lines
    s.line(2, "open 3 00 - - -");
    for number in ["0", "11", "99", "100", "257", "999"] {
        s.line(1, with(1, number));
    }
    s.line(1, "open 12 - - - -");
    for key in ["-", "00", SHORT_KEY, LONG_KEY] {
        s.line(2, with(2, key));
    }
    s.line(2, with(1, "9"));
    s.line(2, with(1, "10"));
    s.line(2, format!("open 9 {KEY} - - -"));
    for nonce in ["-", "a0a1a2a3a4a5a6a7a8a9aa", "a0a1a2a3a4a5a6a7a8a9aaabac"] {
        s.line(3, with(3, nonce));
    }
    s.line(3, format!("open 3 {KEY} 00 - -"));
    for (set, stub) in [(1, 3), (3, 7), (6, 11)] {
        let text = "00".repeat(stub);
        s.line(6, format!("open {set} {KEY} {NONCE} - {text}"));
        s.line(8, format!("open {set} {KEY} {NONCE} - {text}00"));
    }
    s.line(6, format!("open 3 {KEY} {NONCE} - -"));
}

/// One bit of key, nonce, data or text is another, or the set is.
fn false_ones(s: &mut Script) {
    let opening = sealing(set(3).expect("a set"), 5, 30).opening();
    for i in 0..4 {
        let mut other = opening.clone();
        other.values[i][0] ^= 1;
        s.line(8, other.line());
    }
    let mut other = opening.clone();
    *other.values[3].last_mut().expect("a tag") ^= 0x80;
    s.line(8, other.line());
    s.line(8, Request { set: 4, ..opening }.line());
}

fn words(s: &mut Script) {
    let good = GOOD.join(" ");
    s.line(11, "");
    s.line(11, " ");
    s.line(11, FIRST);
    s.line(11, GOOD[..5].join(" "));
    s.line(11, good.clone() + " -");
    s.line(11, good.replacen(' ', "  ", 1));
    s.line(11, good.replacen(' ', "\t", 1));
    for blank in [" ", "\t", "\r", "\0"] {
        s.line(11, good.clone() + blank);
    }
    for before in [" ", "\u{feff}", "\0"] {
        s.line(11, before.to_owned() + &good);
    }
    for act in ["Seal", "SEAL", "sea", "seals", "sealopen", "-"] {
        s.line(11, with(0, act));
    }
}

fn set_words(s: &mut Script) {
    for number in [
        "00", "01", "010", "1000", "-", "", "+1", "-1", "1a", "/", ":",
    ] {
        s.line(11, with(1, number));
    }
}

/// `/` and `:` stand beside the digits, `` ` `` and `g` beside a to f, `@` and `G` beside A to F.
fn hex_words(s: &mut Script) {
    for text in [
        "0", "000", "0A", "F0", "0/", "0:", "0`", "0g", "0@", "0G", "--", "-0", "00-", "0x00", "",
    ] {
        s.line(11, with(5, text));
    }
    s.line(11, with(2, &KEY.to_uppercase()));
    s.line(11, with(3, &NONCE[1..]));
    s.line(11, with(4, "d0d"));
    s.line(11, [with(5, "0").as_bytes(), b"\xb0"].concat()); // 0 with its top bit set
}

/// A line of 4,096 bytes is read. A longer one is one line, whatever its parts would be.
fn lengths(s: &mut Script) {
    let [one, three, ten] = [1, 3, 10].map(|n| set(n).expect("a set"));
    // Act, set and spaces have 10 bytes, or 11 in set 10; key and nonce of set 3 have 56, of set 10 88.
    let sealing_4096 = sealing(three, 2, (4096 - 10 - 56 - 4) / 2);
    let malformed_4097 = sealing(ten, 2, (4097 - 11 - 88 - 4) / 2).line();
    let lengths = [sealing_4096.line().len(), malformed_4097.len()];
    assert_eq!(lengths, [4096, 4097], "other lengths");
    s.line(0, sealing_4096.line());
    s.line(11, malformed_4097);
    s.line(
        11,
        sealing_4096
            .line()
            .into_iter()
            .chain(*b"00")
            .collect::<Vec<_>>(),
    );
    s.opens(&sealing(three, 2, (4096 - 10 - 56 - 4) / 2 - 8));
    for before in [4096, 4097, 10_000] {
        s.line(11, "0".repeat(before) + &GOOD.join(" "));
    }
    s.opens(&sealing(one, 0, 0));
    s.opens(&sealing(one, 0, 1));
}
