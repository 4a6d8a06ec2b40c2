//! The library's answers.

use std::fmt;

/// Why a call was refused: the library's answer, by the name and number that it has there.
///
/// The checks are made in the order of the numbers, and the first that applies is the answer. Those of a mark are
/// made in the order [`Key`](Error::Key), [`Text`](Error::Text), [`Mark`](Error::Mark), and then
/// [`Buffer`](Error::Buffer) or [`False`](Error::False).
///
/// ```
/// use cba::Error;
/// let error = cba::open(11, &[], &[], &[], &[]).unwrap_err();
/// assert_eq!(error, Error::Set);
/// assert_eq!(error.number(), 1);
/// assert_eq!(error.to_string(), "the set is not 1 to 10");
/// ```
#[derive(Clone, Copy, Debug, PartialEq, Eq, Hash)]
#[non_exhaustive]
pub enum Error {
    /// The set is not 1 to 10.
    Set = 1,
    /// The key's length is not the set's or, for a mark, not 16, 24 or 32.
    Key = 2,
    /// The nonce has not 12 bytes.
    Nonce = 3,
    /// The data have more than 4,096 bytes.
    Data = 4,
    /// The message or the log has more than 65,536 bytes, or the ciphertext more than 65,536 and the set's tag.
    Text = 5,
    /// The ciphertext is shorter than the set's tag. Opening only.
    Stub = 6,
    /// The output is shorter than the result. [`seal_into`](crate::seal_into), [`open_into`](crate::open_into) and
    /// [`mark_into`](crate::mark_into) only.
    Buffer = 7,
    /// No message seals to this ciphertext under this set, key, nonce and data, or the mark is not this log's under
    /// this key. Opening and checking only.
    False = 8,
    /// The mark's length is not 4 to 16. [`mark`](crate::mark), [`mark_into`](crate::mark_into) and
    /// [`check_mark`](crate::check_mark) only.
    Mark = 14,
}

impl Error {
    const ALL: [Error; 9] = {
        use Error::*;
        [Set, Key, Nonce, Data, Text, Stub, Buffer, False, Mark]
    };

    /// The answer's number: the library's, `enum cba_answer` in cba.h.
    ///
    /// ```
    /// assert_eq!(cba::Error::False.number(), 8);
    /// ```
    pub const fn number(self) -> u32 {
        self as u32
    }

    /// What an answer of the library says.
    pub(crate) fn check(answer: u32) -> Result<(), Error> {
        match Error::ALL.iter().find(|error| error.number() == answer) {
            Some(&error) => Err(error),
            None if answer == 0 => Ok(()),
            None => panic!("libcba.a answers {answer}, and 0 to 8 and 14 are known here"),
        }
    }
}

impl fmt::Display for Error {
    fn fmt(&self, f: &mut fmt::Formatter<'_>) -> fmt::Result {
        f.write_str(match self {
            Error::Set => "the set is not 1 to 10",
            Error::Key => "the key's length is not the set's or, for a mark, not 16, 24 or 32",
            Error::Nonce => "the nonce has not 12 bytes",
            Error::Data => "the data have more than 4,096 bytes",
            Error::Text => "the text or the log is too long",
            Error::Stub => "the ciphertext is shorter than the set's tag",
            Error::Buffer => "the output is shorter than the result",
            Error::False => "no message seals to this ciphertext, or the mark is not the log's",
            Error::Mark => "the mark's length is not 4 to 16",
        })
    }
}

impl std::error::Error for Error {}
