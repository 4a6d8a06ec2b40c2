//! libgcrypt, by ocb.c.

use crate::candidates::Inputs;
use std::ffi::CStr;
use std::os::raw::{c_char, c_int};

/// OCB is offered with no shorter tag, so a set with a shorter one is measured beside this.
pub const LEAST_TAG: usize = 8;

#[repr(C)]
struct Call {
    key: *const u8,
    nonce: *const u8,
    data: *const u8,
    key_len: usize,
    nonce_len: usize,
    data_len: usize,
    tag_len: usize,
}

#[link(name = "gcrypt")]
extern "C" {}

#[rustfmt::skip]
extern "C" {
    fn ocb_start(hardware: c_int) -> c_int;
    fn ocb_features() -> *const c_char;
    fn ocb_version() -> *const c_char;
    fn ocb_seal(call: *const Call, text: *const u8, text_len: usize, out: *mut u8) -> c_int;
    fn ocb_open(call: *const Call, text: *const u8, text_len: usize, out: *mut u8) -> c_int;
    fn gcrypt_ecb(key: *const u8, key_len: usize, decrypt: c_int, text: *mut u8, text_len: usize) -> c_int;
}

pub fn start(hardware: bool) {
    assert_eq!(unsafe { ocb_start(hardware.into()) }, 0, "libgcrypt fails");
}

/// The hardware features that it uses.
pub fn features() -> Vec<String> {
    let line = unsafe { CStr::from_ptr(ocb_features()) }.to_string_lossy();
    let words = line.trim().split(':').skip(1).filter(|w| !w.is_empty());
    words.map(String::from).collect()
}

pub fn version() -> String {
    let version = unsafe { CStr::from_ptr(ocb_version()) };
    version.to_string_lossy().into_owned()
}

fn call(inputs: &Inputs, tag_len: usize) -> Call {
    Call {
        key: inputs.key.as_ptr(),
        nonce: inputs.nonce.as_ptr(),
        data: inputs.data.as_ptr(),
        key_len: inputs.key.len(),
        nonce_len: inputs.nonce.len(),
        data_len: inputs.data.len(),
        tag_len,
    }
}

pub fn seal(inputs: &Inputs, text: &[u8], out: &mut [u8]) -> bool {
    let c = call(inputs, out.len() - text.len());
    unsafe { ocb_seal(&c, text.as_ptr(), text.len(), out.as_mut_ptr()) == 0 }
}

pub fn open(inputs: &Inputs, text: &[u8], out: &mut [u8]) -> bool {
    let c = call(inputs, text.len() - out.len());
    unsafe { ocb_open(&c, text.as_ptr(), out.len(), out.as_mut_ptr()) == 0 }
}

/// The block cipher alone.
pub fn ecb(key: &[u8], decrypt: bool, text: &[u8]) -> Vec<u8> {
    let mut out = text.to_vec();
    let place = out.as_mut_ptr();
    let failed = unsafe { gcrypt_ecb(key.as_ptr(), key.len(), decrypt.into(), place, out.len()) };
    assert_eq!(failed, 0, "libgcrypt fails");
    out
}
