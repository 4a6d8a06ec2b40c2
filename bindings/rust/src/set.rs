//! The parameter sets.

/// One of the ten parameter sets, 1 to 10: how long its keys and tags are, and how much may be sealed under a key.
///
/// | set | key, bytes | tag, bytes | blocks under a key |
/// |---|---|---|---|
/// | 1 | 16 | 4 | 2^16 |
/// | 2 | 16 | 4 | 2^32 |
/// | 3 | 16 | 8 | 2^16 |
/// | 4 | 16 | 8 | 2^32 |
/// | 5 | 16 | 8 | 2^48 |
/// | 6 | 16 | 12 | 2^16 |
/// | 7 | 16 | 12 | 2^32 |
/// | 8 | 16 | 12 | 2^48 |
/// | 9 | 24 | 8 | 2^32 |
/// | 10 | 32 | 12 | 2^48 |
///
/// ```
/// let set = cba::Set::new(9).expect("9 is a set");
/// let key = vec![7; set.key_len()];
/// let sealed = cba::seal(set.number(), &key, &[0; cba::NONCE_LEN], b"", b"7:42.5")?;
/// assert_eq!(sealed.len(), 6 + set.tag_len());
/// assert_eq!(set.blocks(), 1 << 32);
/// assert_eq!(cba::Set::new(11), None);
/// # Ok::<(), cba::Error>(())
/// ```
#[derive(Clone, Copy, Debug, PartialEq, Eq, Hash)]
pub struct Set {
    number: u32,
    key: usize,
    tag: usize,
    capacity: u32,
}

/// Key and tag in bytes, and the capacity as a power of 2.
const SETS: [(usize, usize, u32); 10] = [
    (16, 4, 16),
    (16, 4, 32),
    (16, 8, 16),
    (16, 8, 32),
    (16, 8, 48),
    (16, 12, 16),
    (16, 12, 32),
    (16, 12, 48),
    (24, 8, 32),
    (32, 12, 48),
];

impl Set {
    /// The set of this number, where there is one.
    pub const fn new(number: u32) -> Option<Set> {
        if number < 1 || number > 10 {
            return None;
        }
        let (key, tag, capacity) = SETS[number as usize - 1];
        Some(Set {
            number,
            key,
            tag,
            capacity,
        })
    }

    /// The set's number, which the calls take.
    pub const fn number(self) -> u32 {
        self.number
    }

    /// The bytes of a key.
    pub const fn key_len(self) -> usize {
        self.key
    }

    /// The bytes of a tag, by which a ciphertext is longer than its message.
    pub const fn tag_len(self) -> usize {
        self.tag
    }

    /// The most blocks that all sealings under one key may use together.
    pub const fn blocks(self) -> u64 {
        1 << self.capacity
    }
}
