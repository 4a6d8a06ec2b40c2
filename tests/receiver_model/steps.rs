//! The steps of the script, each held to an answer that is written by hand, to the output that goes with it, and to
//! what it may change in the receiver. A step that fails says where in the script it stands.

use super::model::Receiver;
use super::numbers::{counter, nonce};
use super::openings::{Opening, Sender, Text};
use super::pieces::Piece;
use super::records::Record;
use super::values::{Values, NOTHING};
use crate::shared::scripts::{answer, filled, key, shown, KEYS_AND_TAGS};

pub struct Script {
    pub records: Vec<Record>,
    pub lines: Vec<String>,
    pub receiver: Receiver,
    pub set: u32, // of fresh and hand-made receivers, and of those who seal for them
    pub prefix: u32,
}

impl Script {
    pub fn new() -> Script {
        Script {
            records: vec![],
            lines: vec![],
            receiver: Receiver::of(&NOTHING),
            set: 1,
            prefix: 0x0102_0304,
        }
    }

    fn add(&mut self, record: Record) {
        self.lines.push(record.line(&mut self.receiver));
        self.records.push(record);
    }

    /// The line of the last step, which must have the answer and, where it has one, the output.
    #[track_caller]
    fn says(&self, expected: u32, out: Option<&[u8]>) {
        let line = self.lines.last().expect("a line");
        let step = self.lines.len();
        let expected = expected.to_string();
        assert_eq!(answer(line), expected, "step {step}: another answer");
        let found = line.splitn(9, ' ').nth(8);
        let out = out.map(shown);
        assert_eq!(found, out.as_deref(), "step {step}: another output");
    }

    /// The lengths of the set's key and tag.
    pub fn lengths(&self) -> (usize, usize) {
        KEYS_AND_TAGS[self.set as usize - 1]
    }

    pub fn tag(&self) -> usize {
        self.lengths().1
    }

    /// A making with the key's first bytes, 00 after the 32.
    #[track_caller]
    pub fn make(&mut self, answer: u32, set: u32, length: usize) {
        let given: Vec<u8> = key().into_iter().chain([0; 32]).take(length).collect();
        self.add(Record::Make(set, self.prefix, given));
        self.says(answer, None);
        let mut made = NOTHING;
        if answer == 0 {
            made.set = set;
            made.prefix = self.prefix;
            made.key[..length].copy_from_slice(&key()[..length]);
        }
        assert_eq!(self.receiver.values(), made, "another receiver");
    }

    #[track_caller]
    pub fn fresh(&mut self) {
        self.make(0, self.set, self.lengths().0);
    }

    /// A hand-made receiver, whose key has no zeros after the bytes that are used.
    pub fn put(&mut self, begun: bool, highest: u64, marks: u64) {
        self.put_set(self.set, begun, highest, marks);
    }

    pub fn put_set(&mut self, set: u32, begun: bool, highest: u64, marks: u64) {
        let values = Values {
            set,
            key: key(),
            prefix: self.prefix,
            begun,
            highest,
            marks,
        };
        self.add(Record::Put(values));
    }

    /// What the receiver has come to.
    #[track_caller]
    pub fn holds(&self, highest: u64, marks: u64) {
        let there = self.receiver.values();
        let found = (there.begun, there.highest, format!("{:016x}", there.marks));
        let held = (true, highest, format!("{marks:016x}"));
        let step = self.lines.len();
        assert_eq!(found, held, "step {step}: another window");
    }

    pub fn sender(&self) -> Sender {
        Sender {
            set: self.set,
            key: key(),
            prefix: self.prefix,
        }
    }

    /// A true one for the receiver, with an output of two bytes more than it needs.
    pub fn piece(&self, counter: u64) -> Piece {
        self.piece_of(counter, [1, 3, 5])
    }

    /// Of these lengths of data, message and output.
    pub fn piece_of(&self, counter: u64, lengths: [usize; 3]) -> Piece {
        self.piece_by(&self.sender(), counter, lengths)
    }

    pub fn piece_by(&self, sender: &Sender, counter: u64, lengths: [usize; 3]) -> Piece {
        let [data, message, out] = lengths;
        let seed = counter as u8;
        let message = filled(message, seed ^ 0x33);
        let opening = Opening {
            out,
            ..sender.piece(counter, data, seed, &message)
        };
        Piece { opening, message }
    }

    /// A record of the opening, which must have the answer. Accepted, it writes its message, and false, as many zeros
    /// as that would have bytes; nothing else of the output changes.
    #[track_caller]
    fn answered(&mut self, record: Record, answer: u32, piece: &Piece) {
        let Piece { opening, message } = piece;
        let result = match answer {
            0 => message.clone(),
            8 => vec![0; opening.text.len() - self.tag()],
            _ => vec![],
        };
        let rest = opening.out().split_off(result.len());
        self.add(record);
        self.says(answer, Some(&[result, rest].concat()));
    }

    /// An opening. Accepted, it changes of the receiver what is about its window, and else nothing.
    #[track_caller]
    pub fn deliver(&mut self, answer: u32, piece: &Piece) {
        let before = self.receiver.values();
        let mut next = before;
        self.answered(Record::Open(piece.opening.clone()), answer, piece);
        if answer == 0 {
            let n = counter(&piece.opening.nonce).expect("12 bytes");
            next.begun = true;
            next.highest = if before.begun {
                n.max(before.highest)
            } else {
                n
            };
            next.marks = self.receiver.values().marks;
            let own = next.marks >> (next.highest - n) & 1;
            assert_eq!(own, 1, "the counter has no mark");
        }
        assert_eq!(self.receiver.values(), next, "another receiver");
    }

    /// Plain opening under so many bytes of the receiver's key. The receiver stays.
    #[track_caller]
    pub fn plain(&mut self, answer: u32, piece: &Piece, length: usize) {
        let before = self.receiver.values();
        let record = Record::Plain(piece.opening.clone(), length as u8);
        self.answered(record, answer, piece);
        assert_eq!(self.receiver.values(), before, "another receiver");
    }

    #[track_caller]
    pub fn open(&mut self, answer: u32, counter: u64) {
        self.deliver(answer, &self.piece(counter));
    }

    /// The shortest piece: no data, no message, no output.
    #[track_caller]
    pub fn open_empty(&mut self, answer: u32, counter: u64) {
        self.deliver(answer, &self.piece_of(counter, [0, 0, 0]));
    }

    /// A false piece, which leaves the receiver: 8 where the counter may open, 15 where it is a repeat.
    #[track_caller]
    pub fn probe(&mut self, answer: u32, counter: u64) {
        let mut piece = self.noise(counter, self.tag());
        piece.opening.out = 1;
        self.deliver(answer, &piece);
    }

    /// A false piece of this length, with room for what would be its message, where it is not shorter than a tag.
    pub fn noise(&self, counter: u64, length: usize) -> Piece {
        let opening = Opening {
            nonce: nonce(self.prefix, counter),
            data: 2,
            seed: 5,
            text: Text::Noise(length, counter as u8),
            out: length.saturating_sub(self.tag()),
        };
        Piece {
            opening,
            message: vec![],
        }
    }
}
