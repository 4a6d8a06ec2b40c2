//! cba_seal and cba_open called from the outside, each call held to what is expected; cmac_make and cmac_check.

#![allow(dead_code)] // no program uses all of it

mod files;
mod marks;
pub mod room;
pub mod run;
mod show;
pub mod test;

use crate::shared::expected::Act;

type Function = unsafe extern "C" fn(
    set: u32,
    key: *const u8,
    key_len: usize,
    nonce: *const u8,
    nonce_len: usize,
    data: *const u8,
    data_len: usize,
    text: *const u8,
    text_len: usize,
    out: *mut u8,
    out_len: usize,
) -> u32;

#[rustfmt::skip]
#[link(name = "cba", kind = "static")]
extern "C" {
    fn cba_seal(
        set: u32, key: *const u8, key_len: usize, nonce: *const u8, nonce_len: usize, data: *const u8,
        data_len: usize, text: *const u8, text_len: usize, out: *mut u8, out_len: usize,
    ) -> u32;
    fn cba_open(
        set: u32, key: *const u8, key_len: usize, nonce: *const u8, nonce_len: usize, data: *const u8,
        data_len: usize, text: *const u8, text_len: usize, out: *mut u8, out_len: usize,
    ) -> u32;
}

impl Act {
    fn function(&self) -> Function {
        match self.name {
            "cba_seal" => cba_seal,
            "cba_open" => cba_open,
            name => unreachable!("no function {name}"),
        }
    }

    /// Each pointer is to as many bytes as its length says, or the call is one that is refused for a length.
    pub unsafe fn call(
        &self,
        number: u32,
        [key, nonce, data, text]: [(*const u8, usize); 4],
        out: (*mut u8, usize),
    ) -> u32 {
        self.function()(
            number, key.0, key.1, nonce.0, nonce.1, data.0, data.1, text.0, text.1, out.0, out.1,
        )
    }
}
