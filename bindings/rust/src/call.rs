//! The library's four functions: all of the unsafe code.

#![allow(unsafe_code)]

#[rustfmt::skip]
type Function = unsafe extern "C" fn(
    set: u32, key: *const u8, key_len: usize, nonce: *const u8, nonce_len: usize, data: *const u8,
    data_len: usize, text: *const u8, text_len: usize, out: *mut u8, out_len: usize,
) -> u32;

// As include/cba.h declares them.
#[rustfmt::skip]
extern "C" {
    fn cba_seal(
        set: u32, key: *const u8, key_len: usize, nonce: *const u8, nonce_len: usize, data: *const u8,
        data_len: usize, text: *const u8, text_len: usize, out: *mut u8, out_len: usize,
    ) -> u32;
    fn cba_open(
        set: u32, key: *const u8, key_len: usize, nonce: *const u8, nonce_len: usize, data: *const u8,
        data_len: usize, text: *const u8, text_len: usize, out: *mut u8, out_len: usize,
    ) -> u32;
    fn cmac_make(
        key: *const u8, key_len: usize, log: *const u8, log_len: usize, mark_len: usize, out: *mut u8,
        out_len: usize,
    ) -> u32;
    fn cmac_check(
        key: *const u8, key_len: usize, log: *const u8, log_len: usize, mark: *const u8, mark_len: usize,
    ) -> u32;
}

/// The answer, for key, nonce, data and message.
pub fn seal(set: u32, inputs: [&[u8]; 4], out: &mut [u8]) -> u32 {
    call(cba_seal, set, inputs, out)
}

/// The answer, for key, nonce, data and ciphertext.
pub fn open(set: u32, inputs: [&[u8]; 4], out: &mut [u8]) -> u32 {
    call(cba_open, set, inputs, out)
}

fn call(function: Function, set: u32, [key, nonce, data, text]: [&[u8]; 4], out: &mut [u8]) -> u32 {
    // SAFETY: all four functions ask for this, and for nothing else (include/cba.h). Each pointer is to as many bytes
    // as its length says, as a slice's is; where that is 0 the pointer is not used, so that an empty slice's, which is
    // to no memory, will do. No input overlaps out, which is borrowed as &mut while they are borrowed as &. They keep
    // no pointer, write within out alone and have no state, so that any thread may call.
    unsafe {
        function(
            set,
            key.as_ptr(),
            key.len(),
            nonce.as_ptr(),
            nonce.len(),
            data.as_ptr(),
            data.len(),
            text.as_ptr(),
            text.len(),
            out.as_mut_ptr(),
            out.len(),
        )
    }
}

/// The answer, for a mark of `len` bytes.
pub fn make_mark(key: &[u8], log: &[u8], len: usize, out: &mut [u8]) -> u32 {
    // SAFETY: as in `call`. `len` is no pointer's length: one that is more than out's is refused.
    unsafe {
        cmac_make(
            key.as_ptr(),
            key.len(),
            log.as_ptr(),
            log.len(),
            len,
            out.as_mut_ptr(),
            out.len(),
        )
    }
}

/// The answer, for the mark that is given.
pub fn check_mark(key: &[u8], log: &[u8], mark: &[u8]) -> u32 {
    // SAFETY: as in `call`. There is no out, and nothing is written.
    unsafe {
        cmac_check(
            key.as_ptr(),
            key.len(),
            log.as_ptr(),
            log.len(),
            mark.as_ptr(),
            mark.len(),
        )
    }
}
