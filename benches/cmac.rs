//! AES-CMAC of libgcrypt and of nettle, by cmac.c.

use crate::candidates::Inputs;
use crate::marks::MARK;
use std::os::raw::c_int;

#[rustfmt::skip]
type Function = unsafe extern "C" fn(
    key: *const u8, key_len: usize, log: *const u8, log_len: usize, out: *mut u8,
) -> c_int;

#[rustfmt::skip]
extern "C" {
    fn cmac_by_gcrypt(key: *const u8, key_len: usize, log: *const u8, log_len: usize, out: *mut u8) -> c_int;
    fn cmac_by_nettle(key: *const u8, key_len: usize, log: *const u8, log_len: usize, out: *mut u8) -> c_int;
}

pub fn gcrypt(inputs: &Inputs, log: &[u8], out: &mut [u8]) -> bool {
    call(cmac_by_gcrypt, &inputs.key, log, out)
}

pub fn nettle(inputs: &Inputs, log: &[u8], out: &mut [u8]) -> bool {
    call(cmac_by_nettle, &inputs.key, log, out)
}

fn call(function: Function, key: &[u8], log: &[u8], out: &mut [u8]) -> bool {
    assert_eq!(out.len(), MARK);
    let (place, from) = (out.as_mut_ptr(), log.as_ptr());
    unsafe { function(key.as_ptr(), key.len(), from, log.len(), place) == 0 }
}
