//! The vectors of RFC 4493, section 4, and of NIST SP 800-38B, appendix D, which has them for longer keys too.

use cba::{check_mark, mark, MAX_MARK};

const MESSAGE: &str = "6bc1bee22e409f96e93d7e117393172aae2d8a571e03ac9c9eb76fac45af8e51\
                       30c81c46a35ce411e5fbc1191a0a52eff69f2445df4f9b17ad2b417be66c3710";

/// Bytes of the message, from its start.
const LENGTHS: [usize; 4] = [0, 16, 40, 64];

/// A key, and the code for each length.
const VECTORS: [(&str, [u128; 4]); 3] = [
    (
        "2b7e151628aed2a6abf7158809cf4f3c",
        [
            0xbb1d6929e95937287fa37d129b756746,
            0x070a16b46b4d4144f79bdd9dd04a287c,
            0xdfa66747de9ae63030ca32611497c827,
            0x51f0bebf7e3b9d92fc49741779363cfe,
        ],
    ),
    (
        "8e73b0f7da0e6452c810f32b809079e562f8ead2522c6b7b",
        [
            0xd17ddf46adaacde531cac483de7a9367,
            0x9e99a7bf31e710900662f65e617c5184,
            0x8a1de5be2eb31aad089a82e6ee908b0e,
            0xa1d5df0eed790f794d77589659f39a11,
        ],
    ),
    (
        "603deb1015ca71be2b73aef0857d77811f352c073b6108d72d9810a30914dff4",
        [
            0x028962f61b7bf89efc6b551f4667d983,
            0x28a7023f452e8f82bd4bf28d8c37c35c,
            0xaaf3d8f1de5640c232f5b169b9c911e6,
            0xe1992190549f6ed5696a2c056c315410,
        ],
    ),
];

fn from_hex(word: &str) -> Vec<u8> {
    let byte = |i| u8::from_str_radix(&word[i..i + 2], 16).expect("hex");
    (0..word.len()).step_by(2).map(byte).collect()
}

#[test]
fn results_of_the_standards() {
    let message = from_hex(MESSAGE);
    for (key, codes) in VECTORS {
        let key = from_hex(key);
        for (len, code) in LENGTHS.into_iter().zip(codes) {
            let (log, code) = (&message[..len], code.to_be_bytes());
            assert_eq!(mark(&key, log, MAX_MARK), Ok(code.to_vec()));
            assert_eq!(check_mark(&key, log, &code), Ok(()));
        }
    }
}
