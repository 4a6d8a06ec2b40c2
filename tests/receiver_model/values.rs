//! A receiver's values, as records and lines have them.

use crate::shared::mode::bytes::to_hex;

#[derive(Clone, Copy, Debug, PartialEq)]
pub struct Values {
    pub set: u32,
    pub key: [u8; 32],
    pub prefix: u32,
    pub begun: bool,
    pub highest: u64,
    pub marks: u64, // bit i, from the lowest, is for the counter i below the highest
}

/// What a refused making gives, and what is there before the first record.
pub const NOTHING: Values = Values {
    set: 0,
    key: [0; 32],
    prefix: 0,
    begun: false,
    highest: 0,
    marks: 0,
};

impl Values {
    /// As lines show them.
    pub fn shown(&self) -> String {
        let Values {
            set,
            key,
            prefix,
            begun,
            highest,
            marks,
        } = self;
        let (key, begun) = (to_hex(key), *begun as u8);
        format!("{set} {key} {prefix} {begun} {highest} {marks:016x}")
    }
}
