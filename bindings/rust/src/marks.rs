//! Marks for logs.

use crate::{call, Error};

/// The most bytes that a log has.
pub const MAX_LOG: usize = 65_536;

/// The fewest bytes that a mark has.
pub const MIN_MARK: usize = 4;

/// The most bytes that a mark has: all of the code.
pub const MAX_MARK: usize = 16;

/// Makes the mark of a log: the first `len` bytes of its AES-CMAC under the key.
///
/// `key` has 16, 24 or 32 bytes, and is not one that seals. `log` has at most 65,536 bytes, and may be empty. `len` is
/// 4 to 16. The same key and log have the same mark every time, and a shorter mark is the start of a longer one.
///
/// # Errors
///
/// The first that applies of [`Error::Key`], [`Error::Text`] and [`Error::Mark`].
///
/// ```
/// let mark = cba::mark(&[9; 16], b"chain oiled", 8)?;
/// assert_eq!(mark.len(), 8);
/// assert_eq!(cba::mark(&[9; 16], b"chain oiled", 4)?, mark[..4]);
/// assert_eq!(cba::mark(&[9; 16], b"chain oiled", 3), Err(cba::Error::Mark));
/// # Ok::<(), cba::Error>(())
/// ```
pub fn mark(key: &[u8], log: &[u8], len: usize) -> Result<Vec<u8>, Error> {
    // A mark that is too long is refused whatever the room.
    let mut out = vec![0; len.min(MAX_MARK)];
    mark_into(key, log, len, &mut out)?;
    Ok(out)
}

/// Makes a mark as [`mark`] does, in the first `len` bytes of `out`. The bytes of `out` after them are as before.
///
/// # Errors
///
/// Those of [`mark`], and last [`Error::Buffer`] where `out` is shorter than `len`. After each of them all of `out` is
/// as before.
///
/// ```
/// let mut out = [0; 10];
/// cba::mark_into(&[9; 16], b"chain oiled", 8, &mut out)?;
/// assert_eq!(out[..8], cba::mark(&[9; 16], b"chain oiled", 8)?);
/// assert_eq!(out[8..], [0; 2]);
/// # Ok::<(), cba::Error>(())
/// ```
pub fn mark_into(key: &[u8], log: &[u8], len: usize, out: &mut [u8]) -> Result<(), Error> {
    Error::check(call::make_mark(key, log, len, out))
}

/// Checks the mark of a log: whether [`mark`] makes just this one of it under this key.
///
/// The caller knows how long its marks are, and has seen that `mark` is as long: each length from 4 to 16 is taken
/// here, and the shorter a mark is, the better it can be guessed.
///
/// # Errors
///
/// The first that applies of [`Error::Key`], [`Error::Text`], [`Error::Mark`] and [`Error::False`]. The last says that
/// the log, the mark or the key is another.
///
/// ```
/// let mut mark = cba::mark(&[9; 16], b"chain oiled", 8)?;
/// assert_eq!(cba::check_mark(&[9; 16], b"chain oiled", &mark), Ok(()));
/// mark[7] ^= 1;
/// assert_eq!(cba::check_mark(&[9; 16], b"chain oiled", &mark), Err(cba::Error::False));
/// # Ok::<(), cba::Error>(())
/// ```
pub fn check_mark(key: &[u8], log: &[u8], mark: &[u8]) -> Result<(), Error> {
    Error::check(call::check_mark(key, log, mark))
}
