//! The examples of RFC 4493 and NIST SP 800-38B for CMAC over AES.

use crate::mode::aes::Aes;
use crate::mode::bytes::{from_hex, to_bits};
use crate::mode::cba::Bits;

/// A key of NIST SP 800-38B, appendix D.
pub struct Example {
    pub name: &'static str,
    key: &'static str,
    /// CIPH(0), K1 and K2: L, L.u and L.u^2.
    pub before: [&'static str; 3],
    /// The codes of the message's first bytes, as many as LENGTHS has.
    codes: [&'static str; 4],
}

const MESSAGE: &str = "6bc1bee22e409f96e93d7e117393172aae2d8a571e03ac9c9eb76fac45af8e51\
                       30c81c46a35ce411e5fbc1191a0a52eff69f2445df4f9b17ad2b417be66c3710";

pub const LENGTHS: [usize; 4] = [0, 16, 40, 64];

/// D.1 is RFC 4493's section 4 too: its L, K1 and K2, and its examples 1 to 4.
pub const EXAMPLES: [Example; 3] = [
    Example {
        name: "D.1",
        key: "2b7e151628aed2a6abf7158809cf4f3c",
        before: [
            "7df76b0c1ab899b33e42f047b91b546f",
            "fbeed618357133667c85e08f7236a8de",
            "f7ddac306ae266ccf90bc11ee46d513b",
        ],
        codes: [
            "bb1d6929e95937287fa37d129b756746",
            "070a16b46b4d4144f79bdd9dd04a287c",
            "dfa66747de9ae63030ca32611497c827",
            "51f0bebf7e3b9d92fc49741779363cfe",
        ],
    },
    Example {
        name: "D.2",
        key: "8e73b0f7da0e6452c810f32b809079e562f8ead2522c6b7b",
        before: [
            "22452d8e49a8a5939f7321ceea6d514b",
            "448a5b1c93514b273ee6439dd4daa296",
            "8914b63926a2964e7dcc873ba9b5452c",
        ],
        codes: [
            "d17ddf46adaacde531cac483de7a9367",
            "9e99a7bf31e710900662f65e617c5184",
            "8a1de5be2eb31aad089a82e6ee908b0e",
            "a1d5df0eed790f794d77589659f39a11",
        ],
    },
    Example {
        name: "D.3",
        key: "603deb1015ca71be2b73aef0857d77811f352c073b6108d72d9810a30914dff4",
        before: [
            "e568f68194cf76d6174d4cc04310a854",
            "cad1ed03299eedac2e9a99808621502f",
            "95a3da06533ddb585d3533010c42a0d9",
        ],
        codes: [
            "028962f61b7bf89efc6b551f4667d983",
            "28a7023f452e8f82bd4bf28d8c37c35c",
            "aaf3d8f1de5640c232f5b169b9c911e6",
            "e1992190549f6ed5696a2c056c315410",
        ],
    },
];

impl Example {
    pub fn K(&self) -> Result<Aes, String> {
        Ok(Aes::new(&from_hex(self.key)?))
    }

    /// The messages with their codes.
    pub fn rows(&self) -> Result<Vec<(Bits, Bits)>, String> {
        let M = from_hex(MESSAGE)?;
        let row = |(n, code): (usize, &str)| Ok((to_bits(&M[..n]), to_bits(&from_hex(code)?)));
        LENGTHS.into_iter().zip(self.codes).map(row).collect()
    }
}
