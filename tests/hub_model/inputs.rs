//! Random inputs: a first line, right or wrong, and lines of all kinds.

use super::lines::MALFORMED;
use super::model::{self, FIRST, LF, MOST_LINE};
use crate::shared::expected::{form, set};
use crate::shared::random::Random;
use std::collections::{BTreeMap, BTreeSet};

/// What the inputs had.
#[derive(Default)]
pub struct Seen {
    kinds: BTreeMap<&'static str, usize>,
    /// Act, set and form of accepted lines.
    forms: BTreeSet<(&'static str, u32, usize)>,
    pub answers: BTreeMap<u32, usize>,
    pub lines: usize,
}

type WrongFirst = (&'static str, fn(&mut Random) -> Vec<u8>);

const WRONG_FIRST: [WrongFirst; 13] = [
    ("first: empty", |_| vec![]),
    ("first: cut short", |r| FIRST[..r.below(FIRST.len())].into()),
    ("first: longer", |r| {
        let more = ["x", " ", " text", "\0", "\t"];
        (FIRST.to_owned() + r.one_of(&more)).into()
    }),
    ("first: CR LF", |_| (FIRST.to_owned() + "\r").into()),
    ("first: a byte order mark", |_| {
        ("\u{feff}".to_owned() + FIRST).into()
    }),
    ("first: a space before", |_| (" ".to_owned() + FIRST).into()),
    ("first: capitals", |r| {
        let mut first = FIRST.as_bytes().to_vec();
        let i = r.pick(&[0, 4, 8, 12, 18, 23, 26]);
        first[i].make_ascii_uppercase();
        first
    }),
    ("first: two spaces", |_| FIRST.replacen(' ', "  ", 1).into()),
    ("first: tabs", |_| FIRST.replace(' ', "\t").into()),
    ("first: another byte", |r| {
        let mut first = FIRST.as_bytes().to_vec();
        let i = r.below(first.len());
        first[i] ^= 1 << r.below(8); // no LF
        first
    }),
    ("first: a line to seal or open", |r| r.accepted().line()),
    ("first: too many bytes, then right", |r| {
        let many = MOST_LINE + r.below(3);
        [vec![b'a'; many], FIRST.into()].concat()
    }),
    ("first: noise", |r| {
        let length = 1 + r.below(5000);
        r.noise(length)
    }),
];

const LINE_KINDS: [&str; 6] = [
    "accepted",
    "damaged",
    "refused",
    "changed in one byte",
    "4,095 bytes",
    "4,096 bytes",
];

impl Seen {
    fn count(&mut self, kind: &'static str) {
        *self.kinds.entry(kind).or_default() += 1;
    }

    /// Counts the answers in an output.
    pub fn output(&mut self, output: &[u8]) {
        for line in String::from_utf8_lossy(output).lines().skip(1) {
            if let [_, answer, _] = line.split(' ').collect::<Vec<_>>()[..] {
                let answer = answer.parse().expect("a number");
                *self.answers.entry(answer).or_default() += 1;
                self.lines += 1;
            }
        }
    }

    /// No kind, no answer that a line can have, and no set, act and form is left out. 4 and 5 are about values that
    /// are longer than a line, and 7 about an output that is too short.
    pub fn all(&self) -> Result<(), String> {
        let kinds = MALFORMED.iter().map(|kind| kind.0);
        let kinds = kinds.chain(WRONG_FIRST.iter().map(|kind| kind.0));
        for kind in kinds.chain(LINE_KINDS) {
            let seen = self.kinds.contains_key(kind);
            seen.then_some(()).ok_or(format!("no line was {kind:?}"))?;
        }
        if !self.answers.keys().eq(&[0, 1, 2, 3, 6, 8, 11]) {
            return Err(format!("the answers were {:?}", self.answers));
        }
        match self.forms.len() {
            60 => Ok(()),
            n => Err(format!("{n} of 60 acts, sets and forms")),
        }
    }

    pub fn kinds(&self) -> usize {
        self.kinds.len()
    }
}

/// A line that is accepted. Its act, set and form are counted.
fn accepted(random: &mut Random, seen: &mut Seen) -> Vec<u8> {
    let request = random.accepted();
    let s = set(request.set).expect("a set");
    let tag = if request.act == "open" { s.t } else { 0 };
    let message = request.values[3].len() - tag;
    seen.forms.insert((request.act, s.number, form(s, message)));
    request.line()
}

/// A byte of a good line put in, taken out or replaced, or a bit of it flipped; some of these are good lines.
fn changed(random: &mut Random) -> Vec<u8> {
    let mut line = random.accepted().line();
    let i = random.below(line.len());
    let byte = random.one_of(b" 0129af-gA\r\t\0\xff");
    match random.below(4) {
        0 => line[i] = byte,
        1 => line.insert(i, byte),
        2 => drop(line.remove(i)),
        _ => line[i] ^= 1 << random.below(8), // no LF
    }
    line
}

fn line(random: &mut Random, seen: &mut Seen) -> Vec<u8> {
    let kind = random.below(100);
    if kind >= 60 {
        let (kind, make) = random.one_of(&MALFORMED);
        let words = random.accepted().words();
        let line = make(random, words);
        let answer = model::answer(&line).answer;
        assert_eq!(answer, 11, "{kind:?} is not malformed");
        seen.count(kind);
        return line;
    }
    let (which, line) = match kind {
        0..=29 => (0, accepted(random, seen)),
        30..=39 => (1, random.damaged().line()),
        40..=51 => (2, random.refused().line()),
        52..=57 => (3, changed(random)),
        58 => (4, random.of_length(MOST_LINE - 1).line()),
        _ => (5, random.of_length(MOST_LINE).line()),
    };
    seen.count(LINE_KINDS[which]);
    line
}

/// An input of some lines, most often few.
pub fn input(random: &mut Random, seen: &mut Seen) -> Vec<u8> {
    if random.one_in(200) {
        return vec![]; // no first line
    }
    let right = !random.one_in(10);
    let mut lines = vec![match right {
        true => FIRST.into(),
        false => {
            let (kind, make) = random.one_of(&WRONG_FIRST);
            seen.count(kind);
            make(random)
        }
    }];
    let count = match random.below(20) {
        0 => 0,
        1 => 30 + random.below(90), // numbers of one, two and three digits
        _ => random.below(12),
    };
    lines.extend((0..count).map(|_| line(random, seen)));
    let mut bytes = lines.join(&LF);
    if random.one_in(2) {
        bytes.push(LF);
    }
    // What document 01 says whatever follows.
    let wrong = b"line answer result\n0 11 -\n";
    assert!(right || model::output(&bytes) == wrong, "a first line");
    bytes
}

/// Bytes of any kind, or such as a line has, with an LF here and there.
pub fn noise(random: &mut Random, length: usize, like_lines: bool) -> Vec<u8> {
    let bytes = random.bytes(length);
    if !like_lines {
        return bytes;
    }
    let of = b"seal open 0123456789abcdef -\n";
    bytes.iter().map(|&b| of[b as usize % of.len()]).collect()
}
