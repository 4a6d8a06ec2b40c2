//! Authenticated encryption of one record at a time, CBA v1-1 over AES, and marks for service logs, AES-CMAC, by the
//! proved library `libcba.a`.
//!
//! [`seal`] makes a ciphertext of a message, and [`open`] gives the message back or refuses. [`seal_into`] and
//! [`open_into`] do the same in a buffer of the caller's. [`mark`] makes the mark of a log, [`mark_into`] does it in a
//! buffer of the caller's, and [`check_mark`] says whether a mark is the log's.
//!
//! ```
//! let key = [7; 16]; // a real one is secret and random
//! let nonce = [0; 12]; // never the same twice under a key
//! let sealed = cba::seal(3, &key, &nonce, b"rower 7", b"2000 m in 7:42.5")?;
//! assert_eq!(cba::open(3, &key, &nonce, b"rower 7", &sealed)?, b"2000 m in 7:42.5");
//! assert_eq!(cba::open(3, &key, &nonce, b"rower 8", &sealed), Err(cba::Error::False));
//! # Ok::<(), cba::Error>(())
//! ```
//!
//! # Marks
//!
//! A mark is the first 4 to 16 bytes of the AES-CMAC (RFC 4493, NIST SP 800-38B) of a log under a key of 16, 24 or 32
//! bytes. Anybody can read the log, and whoever has the key can tell that it is as it was when it was marked.
//!
//! ```
//! let key = [9; 16]; // secret and random, and not one that seals
//! let mark = cba::mark(&key, b"rower 7: chain oiled", 8)?;
//! assert_eq!(cba::check_mark(&key, b"rower 7: chain oiled", &mark), Ok(()));
//! assert_eq!(cba::check_mark(&key, b"rower 8: chain oiled", &mark), Err(cba::Error::False));
//! # Ok::<(), cba::Error>(())
//! ```
//!
//! A mark is no encryption: it hides nothing of the log. It does not tell who marked the log, for whoever can check a
//! mark can make one, nor that the log is new: one that is sent again passes again.
//!
//! # What a caller has to see to
//!
//! * The key is random and secret. Set and key are known to the one who opens, and not taken from the record.
//! * A key is for sealing or for marks, and never for both: each mode's claim is about a key that nothing else uses.
//! * A mark of n bytes is guessed with a chance of 256^-n, and each try is a new chance. The one who checks knows n
//!   and holds the mark's length to it: were it taken from the mark that is sent, a guesser would send one of 4 bytes.
//! * SP 800-38B advises marks of 8 bytes or more (appendix A), and at most 2^48 logs under one key (appendix B).
//!   Nothing here counts them.
//! * No nonce is used twice to seal under one key; a count will do. Whoever sees two ciphertexts under one key and
//!   nonce learns where blocks of 16 bytes of their messages are the same and the exclusive or of some others of their
//!   bytes, and may be able to make a ciphertext that opens.
//! * All sealings under one key use at most [`Set::blocks`] blocks. One uses ⌈data bytes / 16⌉ + ⌈message bytes /
//!   16⌉, and counts as one where that is 0. Nothing here counts them.
//! * A call needs up to 96 KiB of stack: 16 KiB, and 20 bytes for each byte of data. A mark has no data. This is
//!   measured, not proved, and a call does not notice that its stack is too small.
//!
//! A call has no state: any number of threads may call at once.
//!
//! # What is proved
//!
//! Of the library, for every input: the answer, the result and every byte of the output; that sealing is CBA v1-1's
//! ENC over AES and opening its DEC; that a mark is the first bytes of the log's AES-CMAC, and that exactly this mark
//! passes the check. Not proved: that CBA or CMAC is hard to break; how long a call takes (AES's tables are read at
//! places that depend on the key, so that the time may tell of it); that nothing of a key is left in memory; and this
//! crate, which is a few lines around the library's four calls.

#![deny(missing_docs, unsafe_code)]

mod call;
mod error;
mod marks;
mod set;

pub use error::Error;
pub use marks::{check_mark, mark, mark_into, MAX_LOG, MAX_MARK, MIN_MARK};
pub use set::Set;

/// The bytes of a nonce.
pub const NONCE_LEN: usize = 12;

/// The most bytes that associated data have.
pub const MAX_DATA: usize = 4096;

/// The most bytes that a message has.
pub const MAX_MESSAGE: usize = 65_536;

/// Seals a message: gives its ciphertext, which is as long as the message and the set's tag together.
///
/// `set` is the number of a parameter set, 1 to 10 (see [`Set`]), and `key` as long as the set's. `nonce` has 12 bytes,
/// and is never the same twice under a key. `data`, at most 4,096 bytes, are authenticated with the message, and
/// neither encrypted nor part of the result. `message` has at most 65,536 bytes.
///
/// # Errors
///
/// The first that applies of [`Error::Set`], [`Error::Key`], [`Error::Nonce`], [`Error::Data`] and [`Error::Text`].
///
/// ```
/// let sealed = cba::seal(3, &[7; 16], &[0; 12], b"", b"7:42.5")?;
/// assert_eq!(sealed.len(), 6 + 8);
/// assert_eq!(cba::seal(3, &[7; 24], &[0; 12], b"", b"7:42.5"), Err(cba::Error::Key));
/// # Ok::<(), cba::Error>(())
/// ```
pub fn seal(
    set: u32,
    key: &[u8],
    nonce: &[u8],
    data: &[u8],
    message: &[u8],
) -> Result<Vec<u8>, Error> {
    // A message that is too long is refused whatever the room.
    let room = Set::new(set).map_or(0, |s| message.len().min(MAX_MESSAGE) + s.tag_len());
    let mut out = vec![0; room];
    seal_into(set, key, nonce, data, message, &mut out)?;
    Ok(out)
}

/// Opens a ciphertext: gives the one message that seals to it.
///
/// `set`, `key`, `nonce` and `data` are those of the sealing, as for [`seal`]. `ciphertext` has at least the set's tag,
/// and at most 65,536 bytes more.
///
/// # Errors
///
/// The first that applies of [`Error::Set`], [`Error::Key`], [`Error::Nonce`], [`Error::Data`], [`Error::Text`],
/// [`Error::Stub`] and [`Error::False`].
///
/// ```
/// let mut sealed = cba::seal(3, &[7; 16], &[0; 12], b"", b"7:42.5")?;
/// assert_eq!(cba::open(3, &[7; 16], &[0; 12], b"", &sealed)?, b"7:42.5");
/// sealed[0] ^= 1;
/// assert_eq!(cba::open(3, &[7; 16], &[0; 12], b"", &sealed), Err(cba::Error::False));
/// # Ok::<(), cba::Error>(())
/// ```
pub fn open(
    set: u32,
    key: &[u8],
    nonce: &[u8],
    data: &[u8],
    ciphertext: &[u8],
) -> Result<Vec<u8>, Error> {
    let room = Set::new(set).map_or(0, |s| {
        ciphertext
            .len()
            .saturating_sub(s.tag_len())
            .min(MAX_MESSAGE)
    });
    let mut out = vec![0; room];
    open_into(set, key, nonce, data, ciphertext, &mut out)?;
    Ok(out)
}

/// Seals as [`seal`] does, into the first bytes of `out`, and gives the number of these bytes: the message's and the
/// tag's. The bytes of `out` after them are as before.
///
/// # Errors
///
/// Those of [`seal`], and last [`Error::Buffer`] where `out` is shorter than the result. After each of them all of
/// `out` is as before.
///
/// ```
/// let mut out = [0; 100];
/// let n = cba::seal_into(3, &[7; 16], &[0; 12], b"", b"7:42.5", &mut out)?;
/// assert_eq!(out[..n], cba::seal(3, &[7; 16], &[0; 12], b"", b"7:42.5")?);
/// assert_eq!(out[n..], [0; 100 - 14]);
/// # Ok::<(), cba::Error>(())
/// ```
pub fn seal_into(
    set: u32,
    key: &[u8],
    nonce: &[u8],
    data: &[u8],
    message: &[u8],
    out: &mut [u8],
) -> Result<usize, Error> {
    Error::check(call::seal(set, [key, nonce, data, message], out))?;
    Ok(message.len() + tag_len(set))
}

/// Opens as [`open`] does, into the first bytes of `out`, and gives the number of these bytes: the ciphertext's less
/// the tag's. The bytes of `out` after them are as before.
///
/// # Errors
///
/// Those of [`open`], and before [`Error::False`] [`Error::Buffer`], where `out` is shorter than the message would be.
/// After [`Error::False`] as many bytes as the message would have are 0, and the bytes after them are as before. After
/// each other error all of `out` is as before.
///
/// ```
/// let mut sealed = cba::seal(3, &[7; 16], &[0; 12], b"", b"7:42.5")?;
/// let mut out = [b'.'; 9];
/// assert_eq!(cba::open_into(3, &[7; 16], &[0; 12], b"", &sealed, &mut out), Ok(6));
/// assert_eq!(&out, b"7:42.5...");
/// sealed[0] ^= 1;
/// assert_eq!(cba::open_into(3, &[7; 16], &[0; 12], b"", &sealed, &mut out), Err(cba::Error::False));
/// assert_eq!(&out, b"\0\0\0\0\0\0...");
/// # Ok::<(), cba::Error>(())
/// ```
pub fn open_into(
    set: u32,
    key: &[u8],
    nonce: &[u8],
    data: &[u8],
    ciphertext: &[u8],
    out: &mut [u8],
) -> Result<usize, Error> {
    Error::check(call::open(set, [key, nonce, data, ciphertext], out))?;
    Ok(ciphertext.len() - tag_len(set))
}

/// Of a set that a call has accepted.
fn tag_len(set: u32) -> usize {
    Set::new(set).map_or(0, Set::tag_len)
}
