//! nettle's AES, by nettle.c.

use crate::candidates::Inputs;
use std::os::raw::c_int;

#[link(name = "nettle")]
extern "C" {}

#[rustfmt::skip]
extern "C" {
    fn nettle_ecb_encrypt(key: *const u8, key_len: usize, text: *const u8, len: usize, out: *mut u8);
    fn nettle_ecb_decrypt(key: *const u8, key_len: usize, text: *const u8, len: usize, out: *mut u8);
    fn nettle_major() -> c_int;
    fn nettle_minor() -> c_int;
}

pub fn version() -> String {
    unsafe { format!("{}.{}", nettle_major(), nettle_minor()) }
}

/// Whether its hardware code is off in this process: the library looks at this once, when it is loaded.
pub fn is_plain() -> bool {
    std::env::var("NETTLE_FAT_OVERRIDE").as_deref() == Ok("none")
}

pub fn encrypt(inputs: &Inputs, text: &[u8], out: &mut [u8]) -> bool {
    let (key, place) = (&inputs.key, out.as_mut_ptr());
    assert_eq!(text.len(), out.len());
    unsafe { nettle_ecb_encrypt(key.as_ptr(), key.len(), text.as_ptr(), text.len(), place) };
    true
}

pub fn decrypt(inputs: &Inputs, text: &[u8], out: &mut [u8]) -> bool {
    let (key, place) = (&inputs.key, out.as_mut_ptr());
    assert_eq!(text.len(), out.len());
    unsafe { nettle_ecb_decrypt(key.as_ptr(), key.len(), text.as_ptr(), text.len(), place) };
    true
}
