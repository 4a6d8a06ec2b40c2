//! CMAC by libgcrypt, which has nothing in common with the second implementation.

use std::ffi::{c_char, c_int, c_uint, c_void};
use std::ptr::{null, null_mut};
use std::sync::Once;

const CMAC_AES: c_int = 201; // GCRY_MAC_CMAC_AES: the key's length tells which AES
const NO_SECURE_MEMORY: c_int = 37; // GCRYCTL_DISABLE_SECMEM
const STARTED: c_int = 38; // GCRYCTL_INITIALIZATION_FINISHED

#[link(name = "gcrypt")]
extern "C" {
    fn gcry_check_version(least: *const c_char) -> *const c_char;
    fn gcry_control(command: c_int, ...) -> c_uint;
    fn gcry_mac_open(mac: *mut *mut c_void, kind: c_int, flags: c_uint, of: *mut c_void) -> c_uint;
    fn gcry_mac_setkey(mac: *mut c_void, key: *const u8, key_len: usize) -> c_uint;
    fn gcry_mac_write(mac: *mut c_void, log: *const u8, log_len: usize) -> c_uint;
    fn gcry_mac_read(mac: *mut c_void, code: *mut u8, code_len: *mut usize) -> c_uint;
    fn gcry_mac_close(mac: *mut c_void);
}

static START: Once = Once::new();

fn start() {
    let version = unsafe { gcry_check_version(null()) };
    assert!(!version.is_null(), "libgcrypt does not start");
    for command in [NO_SECURE_MEMORY, STARTED] {
        done(unsafe { gcry_control(command, 0 as c_int) });
    }
}

fn done(error: c_uint) {
    assert_eq!(error, 0, "libgcrypt fails");
}

pub fn code(key: &[u8], log: &[u8]) -> Vec<u8> {
    START.call_once(start);
    let (mut mac, mut code, mut len) = (null_mut(), vec![0; 16], 16);
    unsafe {
        done(gcry_mac_open(&mut mac, CMAC_AES, 0, null_mut()));
        done(gcry_mac_setkey(mac, key.as_ptr(), key.len()));
        done(gcry_mac_write(mac, log.as_ptr(), log.len()));
        done(gcry_mac_read(mac, code.as_mut_ptr(), &mut len));
        gcry_mac_close(mac);
    }
    assert_eq!(len, 16, "another code of libgcrypt");
    code
}
