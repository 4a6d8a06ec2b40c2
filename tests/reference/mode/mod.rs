//! CBA v1-1 written a second time, from the paper alone, on strings of bits.

pub mod aes;
pub mod bytes;
pub mod cba;
