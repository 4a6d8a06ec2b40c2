//! Each error of sealing and opening, by itself and before those after it, and what is in the buffer then.

use cba::{open, open_into, seal, seal_into, Error, Set, MAX_DATA, MAX_MESSAGE, NONCE_LEN};

/// In the order of the checks, which is that of their numbers.
const ERRORS: [Error; 8] = [
    Error::Set,
    Error::Key,
    Error::Nonce,
    Error::Data,
    Error::Text,
    Error::Stub,
    Error::Buffer,
    Error::False,
];

type Call = fn(u32, &[u8], &[u8], &[u8], &[u8], &mut [u8]) -> Result<usize, Error>;

/// Lengths of key, nonce, data, text and output that are refused for nothing, and those that are refused.
struct Lengths {
    number: u32,
    good: [usize; 5],
}

impl Lengths {
    fn new(set: Set, text: usize, out: usize) -> Lengths {
        let good = [set.key_len(), NONCE_LEN, 20, text, out];
        let number = set.number();
        Lengths { number, good }
    }

    /// Bit i of `wrong` stands for the error i + 1; with both a long text and a stub there is the long text.
    fn wrong(&self, wrong: u32, tag: usize) -> (u32, [usize; 5]) {
        let is = |error: Error| wrong >> (error.number() - 1) & 1 == 1;
        let [mut key, mut nonce, mut data, mut text, mut out] = self.good;
        let number = if is(Error::Set) { 11 } else { self.number };
        key -= is(Error::Key) as usize;
        nonce += is(Error::Nonce) as usize;
        data += is(Error::Data) as usize * MAX_DATA;
        if is(Error::Stub) {
            text = tag - 1;
        }
        if is(Error::Text) {
            text += MAX_MESSAGE + tag;
        }
        if is(Error::Buffer) {
            out -= 1;
        }
        (number, [key, nonce, data, text, out])
    }
}

fn call(function: Call, number: u32, lengths: [usize; 5]) -> (Result<usize, Error>, Vec<u8>) {
    let [key, nonce, data, text, mut out] = lengths.map(|n| vec![0xa5; n]);
    let answer = function(number, &key, &nonce, &data, &text, &mut out);
    (answer, out)
}

fn first(wrong: u32) -> Error {
    ERRORS[wrong.trailing_zeros() as usize]
}

#[test]
fn sealing_refuses_the_first_thing_wrong() {
    for set in (1..=10).filter_map(Set::new) {
        let lengths = Lengths::new(set, 30, 30 + set.tag_len());
        for wrong in (1..128).filter(|wrong| wrong & 0b10_0000 == 0) {
            let (number, lengths) = lengths.wrong(wrong, set.tag_len());
            let (answer, out) = call(seal_into, number, lengths);
            assert_eq!(answer, Err(first(wrong)));
            assert!(out.iter().all(|&byte| byte == 0xa5), "out is as before");
        }
    }
}

#[test]
fn opening_refuses_the_first_thing_wrong() {
    for set in (1..=10).filter_map(Set::new) {
        let tag = set.tag_len();
        let lengths = Lengths::new(set, tag + 30, 30);
        // A text that is too long is no stub, and a stub needs no room.
        for wrong in (1..128).filter(|wrong| wrong & 0b10_0000 == 0 || wrong & 0b101_0000 == 0) {
            let (number, lengths) = lengths.wrong(wrong, tag);
            let (answer, out) = call(open_into, number, lengths);
            assert_eq!(answer, Err(first(wrong)));
            assert!(out.iter().all(|&byte| byte == 0xa5), "out is as before");
        }
    }
}

#[test]
fn false_leaves_zeros_where_the_message_would_be() {
    for set in (1..=10).filter_map(Set::new) {
        for message in [0, 1, 16, 100] {
            let text = message + set.tag_len();
            let lengths = [set.key_len(), NONCE_LEN, 20, text, message + 5];
            let (answer, out) = call(open_into, set.number(), lengths);
            assert_eq!(answer, Err(Error::False));
            assert_eq!(out, [vec![0; message], vec![0xa5; 5]].concat());
        }
    }
}

/// Without a buffer of the caller's the same errors come, but for the buffer's.
#[test]
fn a_vector_is_refused_alike() {
    let [key, nonce] = [16, 12].map(|n| vec![0; n]);
    let long = vec![0; 2 * MAX_MESSAGE];
    assert_eq!(seal(0, &key, &nonce, b"", b""), Err(Error::Set));
    assert_eq!(seal(u32::MAX, &key, &nonce, b"", b""), Err(Error::Set));
    assert_eq!(seal(3, &[], &nonce, b"", b""), Err(Error::Key));
    assert_eq!(seal(3, &key, &[], b"", b""), Err(Error::Nonce));
    assert_eq!(seal(3, &key, &nonce, &long, b""), Err(Error::Data));
    assert_eq!(seal(3, &key, &nonce, b"", &long), Err(Error::Text));
    assert_eq!(open(11, &key, &nonce, b"", b""), Err(Error::Set));
    assert_eq!(open(3, &key, &nonce, b"", &long), Err(Error::Text));
    assert_eq!(open(3, &key, &nonce, b"", &[0; 7]), Err(Error::Stub));
    assert_eq!(open(3, &key, &nonce, b"", &[0; 8]), Err(Error::False));
}

#[test]
fn an_error_has_its_number_and_a_text_of_its_own() {
    let numbers = ERRORS.map(Error::number);
    assert_eq!(numbers, [1, 2, 3, 4, 5, 6, 7, 8]);
    assert_eq!(Error::Mark.number(), 14);
    let all = [&ERRORS[..], &[Error::Mark]].concat();
    for error in &all {
        let as_error: &dyn std::error::Error = error;
        let others = all.iter().filter(|other| *other != error);
        assert!(others
            .into_iter()
            .all(|other| other.to_string() != as_error.to_string()));
    }
}
