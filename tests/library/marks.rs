//! cmac_make and cmac_check.

use crate::shared::marks::Act;

#[rustfmt::skip]
#[link(name = "cba", kind = "static")]
extern "C" {
    fn cmac_make(
        key: *const u8, key_len: usize, log: *const u8, log_len: usize, mark_len: usize, out: *mut u8,
        out_len: usize,
    ) -> u32;
    fn cmac_check(
        key: *const u8, key_len: usize, log: *const u8, log_len: usize, mark: *const u8, mark_len: usize,
    ) -> u32;
}

impl Act {
    /// Of a making the mark has only a length, and a checking has no output. Each pointer is to as many bytes as its
    /// length says, or the call is one that is refused for a length.
    pub unsafe fn call(
        self,
        [key, log, mark]: [(*const u8, usize); 3],
        out: (*mut u8, usize),
    ) -> u32 {
        match self {
            Act::Make => cmac_make(key.0, key.1, log.0, log.1, mark.1, out.0, out.1),
            Act::Check => cmac_check(key.0, key.1, log.0, log.1, mark.0, mark.1),
        }
    }
}
