//! Random lines: accepted ones, refused ones, and malformed ones of each kind.

use super::model::{FIRST, HEADING, LF, MOST_LINE};
use crate::shared::expected::{set, Set, NONCE, SEAL};
use crate::shared::inputs::DATA;
use crate::shared::mode::bytes::to_hex;
use crate::shared::random::Random;

pub type Words = [String; 6];

/// What a well-formed line asks for.
#[derive(Clone)]
pub struct Request {
    pub act: &'static str,
    pub set: u32,
    /// Key, nonce, data and text.
    pub values: [Vec<u8>; 4],
}

impl Request {
    pub fn words(&self) -> Words {
        let [key, nonce, data, text] = [0, 1, 2, 3].map(|i| to_hex(&self.values[i]));
        [
            self.act.into(),
            self.set.to_string(),
            key,
            nonce,
            data,
            text,
        ]
    }

    pub fn line(&self) -> Vec<u8> {
        joined(self.words())
    }

    /// The opening of what this sealing gives.
    pub fn opening(&self) -> Request {
        let mut opening = self.clone();
        opening.act = "open";
        let values = [0, 1, 2, 3].map(|i| &self.values[i][..]);
        opening.values[3] = (SEAL.expected)(self.set, values).1;
        opening
    }
}

pub fn joined(words: Words) -> Vec<u8> {
    words.join(" ").into_bytes()
}

impl Random {
    pub fn one_in(&mut self, n: usize) -> bool {
        self.below(n) == 0
    }

    pub fn one_of<T: Copy>(&mut self, of: &[T]) -> T {
        of[self.below(of.len())]
    }

    pub fn any_set(&mut self) -> Set {
        set(1 + self.below(10) as u32).expect("ten sets")
    }

    pub fn sealing(&mut self, s: Set, data: usize, text: usize) -> Request {
        Request {
            act: "seal",
            set: s.number,
            values: [s.key, NONCE, data, text].map(|n| self.input(n)),
        }
    }

    /// A sealing of a length at which a form or a block begins or ends, or of any.
    pub fn any_sealing(&mut self) -> Request {
        let s = self.any_set();
        let data = match self.below(32) {
            0 => self.pick(&DATA[..10]), // longer ones do not fit into a line
            1..=15 => 0,
            _ => self.below(40),
        };
        let text = match self.below(32) {
            0..=3 => self.below(s.l + 1),
            4..=15 => s.l + self.pick(&[0, 1, 15, 16, 17, 31, 32, 33, 32 - s.t, 33 - s.t]),
            16 => self.below(1000),
            _ => self.below(70),
        };
        self.sealing(s, data, text)
    }

    /// A sealing, or the opening of one.
    pub fn accepted(&mut self) -> Request {
        let sealing = self.any_sealing();
        match self.below(2) {
            0 => sealing,
            _ => sealing.opening(),
        }
    }

    /// An opening of what no one sealed, but for chance.
    pub fn damaged(&mut self) -> Request {
        let mut request = self.any_sealing().opening();
        let which = self.one_of(&[0, 1, 2, 3, 3, 3]);
        let value = &mut request.values[which];
        match self.below(8) {
            0 => request.set = 1 + (request.set + self.below(8) as u32) % 10,
            1 => drop(request.values[3].pop()),
            2 => request.values[3].push(0),
            3 => request.values[3] = vec![],
            _ if value.is_empty() => value.push(0x80),
            _ => {
                let bit = self.below(8 * value.len());
                value[bit / 8] ^= 0x80 >> (bit % 8);
            }
        }
        request
    }

    /// One thing wrong or more; the first in the table is the answer.
    pub fn refused(&mut self) -> Request {
        let mut request = self.accepted();
        for _ in 0..1 + self.below(3) {
            match self.below(4) {
                0 => request.set = self.one_of(&[0, 11, 12, 99, 100, 255, 256, 257, 266, 512, 999]),
                1 => {
                    let length = self.pick(&[0, 1, 15, 16, 17, 23, 24, 25, 31, 32, 33]);
                    request.values[0] = self.bytes(length);
                }
                2 => {
                    let length = self.pick(&[0, 1, 11, 13, 24, 268]);
                    request.values[1] = self.bytes(length);
                }
                _ => {
                    let length = self.pick(&[0, 1, 3, 4, 7, 8, 11]);
                    (request.act, request.values[3]) = ("open", self.bytes(length));
                }
            }
        }
        request
    }

    /// An accepted request, but for its length, whose line has so many bytes. Set 10 has one digit more, and no
    /// data are one `-`: one of the two makes an odd number.
    pub fn of_length(&mut self, length: usize) -> Request {
        let no_data = self.one_in(2);
        let s = match (length % 2 == 1) != no_data {
            true => set(10),
            false => set(1 + self.below(9) as u32),
        };
        let s = s.expect("ten sets");
        let fixed = self.sealing(s, 0, 0).line().len();
        let bytes = (length + 2 - no_data as usize - fixed) / 2; // there are two `-` fewer, or one
        let data = match no_data {
            true => 0,
            false => 1 + self.below(bytes - s.t - 1),
        };
        let text = bytes - data;
        let request = match self.below(2) {
            0 => self.sealing(s, data, text),
            _ => self.sealing(s, data, text - s.t).opening(),
        };
        assert_eq!(request.line().len(), length, "another length");
        request
    }
}

// ---------------------------------------------------------------------------
// Malformed lines.

type Malformation = (&'static str, fn(&mut Random, Words) -> Vec<u8>);

/// The kinds, each of which makes a malformed line of six good words.
pub const MALFORMED: [Malformation; 29] = [
    ("empty", |_, _| vec![]),
    ("an empty value", |r, w| with(w, r.below(6), "")),
    ("five words", |r, w| without(w, r.below(6))),
    ("seven words", seven_words),
    ("two spaces", |r, w| {
        let i = r.below(5);
        let word = w[i].clone() + " ";
        with(w, i, &word)
    }),
    ("a space before", |_, w| [b" ", &joined(w)[..]].concat()),
    ("a space after", |_, w| [&joined(w)[..], b" "].concat()),
    ("another blank", another_blank),
    ("CR LF", |_, w| [&joined(w)[..], b"\r"].concat()),
    ("CR within", |r, w| inserted(r, w, b'\r')),
    ("NUL", |r, w| inserted(r, w, 0)),
    ("NUL after", |_, w| [&joined(w)[..], &[0]].concat()),
    ("a byte order mark", |_, w| {
        ["\u{feff}".as_bytes(), &joined(w)].concat()
    }),
    ("a high byte", |r, w| {
        let byte = 0x80 | r.number() as u8;
        inserted(r, w, byte)
    }),
    ("a top bit", |r, w| {
        let mut line = joined(w);
        let i = r.below(line.len());
        line[i] |= 0x80;
        line
    }),
    ("another act", another_act),
    ("a zero before", |r, w| {
        let set = r.one_of(&["00", "01", "02", "09", "010", "000", "001", "011"]);
        with(w, 1, set)
    }),
    ("four digits", |r, w| {
        let set = r.one_of(&["1000", "1001", "9999", "0001", "65537", "4294967297"]);
        with(w, 1, set)
    }),
    ("no number", no_number),
    ("a capital digit", |r, w| digit(r, w, "ABCDEF")),
    ("no digit", |r, w| digit(r, w, "/:@`gGxloO. -+_~")),
    ("an odd number of digits", odd_digits),
    ("- among digits", |r, w| {
        let word = r.one_of(&["--", "-0", "0-", "-00", "00-", "0-0", "---", "00--"]);
        with(w, 2 + r.below(4), word)
    }),
    ("4,097 bytes", |r, _| r.of_length(MOST_LINE + 1).line()),
    ("a long line", long_line),
    ("a line after too many bytes", after_too_many),
    ("bytes after 4,096", after_all),
    ("a line of another kind", |r, _| {
        let lines = [FIRST, HEADING, "set accepted", "# a note", "0 11 -", "-"];
        r.one_of(&lines).into()
    }),
    ("noise", |r, _| {
        let length = 1 + r.below(300);
        r.noise(length)
    }),
];

fn with(mut words: Words, i: usize, word: &str) -> Vec<u8> {
    words[i] = word.into();
    joined(words)
}

fn without(words: Words, i: usize) -> Vec<u8> {
    let mut words = words.to_vec();
    words.remove(i);
    words.join(" ").into_bytes()
}

fn seven_words(random: &mut Random, words: Words) -> Vec<u8> {
    let word = random.one_of(&["-", "00", "seal", "1", "x"]);
    let mut words = words.to_vec();
    words.insert(random.below(7), word.into());
    words.join(" ").into_bytes()
}

/// In the place of one of the spaces.
fn another_blank(random: &mut Random, words: Words) -> Vec<u8> {
    let blank = random.one_of(&["\t", "\x0b", "\x0c", "\r", "\0", "\u{a0}", "\u{3000}", ","]);
    let i = random.below(5);
    let pair = words[i].clone() + blank + &words[i + 1];
    let mut words = words.to_vec();
    words.splice(i..i + 2, [pair]);
    words.join(" ").into_bytes()
}

/// A byte that is in no line, at any place.
fn inserted(random: &mut Random, words: Words, byte: u8) -> Vec<u8> {
    let mut line = joined(words);
    line.insert(random.below(line.len() + 1), byte);
    line
}

fn another_act(random: &mut Random, words: Words) -> Vec<u8> {
    let acts = [
        "Seal", "SEAL", "Open", "oPEN", "sea", "seals", "ope", "opens", "opem", "sealopen", "-",
        "act", "s", "0", "reseal", "sfal", "peno",
    ];
    with(words, 0, random.one_of(&acts))
}

fn no_number(random: &mut Random, words: Words) -> Vec<u8> {
    let sets = [
        "-", "+1", "-1", "1.", "1,", "a", "0x1", "1a", "a1", ":", "/", "1:", "1/", "\u{661}",
        "1e0", "10-",
    ];
    with(words, 1, random.one_of(&sets))
}

/// A value in which one digit is another character.
fn digit(random: &mut Random, words: Words, of: &str) -> Vec<u8> {
    let length = 2 * (1 + random.below(20));
    let mut value: Vec<char> = to_hex(&random.bytes(length / 2)).chars().collect();
    let others: Vec<char> = of.chars().collect();
    value[random.below(length)] = random.one_of(&others);
    let value: String = value.into_iter().collect();
    with(words, 2 + random.below(4), &value)
}

fn odd_digits(random: &mut Random, words: Words) -> Vec<u8> {
    let i = 2 + random.below(4);
    let word = words[i].trim_start_matches('-').to_string();
    match word.len() {
        0 => with(words, i, random.one_of(&["0", "a", "000"])),
        n if random.one_in(2) => with(words, i, &word[..n - 1]),
        _ => with(words, i, &(word + "0")),
    }
}

/// Its first 4,096 bytes are a good line or are none.
fn long_line(random: &mut Random, _: Words) -> Vec<u8> {
    let more = random.pick(&[2, 3, 100, 4096, 4097, 8192, 61_000]);
    match random.below(3) {
        0 => random.of_length(MOST_LINE + more).line(),
        1 => vec![b'0'; MOST_LINE + more],
        _ => vec![b' '; MOST_LINE + more],
    }
}

/// A good line, as one sees it who begins again where a line has grown too long.
fn after_too_many(random: &mut Random, words: Words) -> Vec<u8> {
    let many = random.pick(&[4095, 4096, 4097, 4098, 8191, 8192, 8194]);
    let before = random.one_of(&[b'0', b' ', b'\r', 0]);
    [vec![before; many], joined(words)].concat()
}

/// A good line, as one sees it who leaves out what is too long.
fn after_all(random: &mut Random, _: Words) -> Vec<u8> {
    let line = random.of_length(MOST_LINE).line();
    let after = random.one_of(&["0", "00", " ", "\r", "0000", " 00"]);
    [&line[..], after.as_bytes()].concat()
}

impl Random {
    /// Bytes that are no LF.
    pub fn noise(&mut self, length: usize) -> Vec<u8> {
        let mut bytes = self.bytes(length);
        bytes.iter_mut().for_each(|b| *b += (*b == LF) as u8);
        bytes
    }
}
