//! What a ledger has under a name: by F-3 the data that were kept there, and by hand any flag and any sum.

use crate::shared::expected::{reference, SEAL};
use crate::shared::mode::aes::Aes;
use crate::shared::mode::bytes::{to_bits, to_bytes, to_hex};
use crate::shared::mode::cba::MSB;

pub const NAMES: usize = 8;

pub type Sum = [u8; 16];

#[derive(Clone, Debug, PartialEq)]
pub enum Heading {
    Data(Vec<u8>, Sum), // the sum is these data's; lines show it, and no sealing uses it
    Hand(bool, Sum),    // whether something is kept, and the sum
}

pub const NOTHING: Heading = Heading::Hand(false, [0; 16]);

impl Heading {
    /// Data kept under a set and a key.
    pub fn of(set: u32, key: &[u8], data: Vec<u8>) -> Heading {
        let S = reference(set).H_sum(&Aes::new(key), &to_bits(&data));
        let sum = to_bytes(&S).try_into().expect("16 bytes");
        Heading::Data(data, sum)
    }

    pub fn kept(&self) -> bool {
        match self {
            Heading::Data(..) => true,
            Heading::Hand(kept, _) => *kept,
        }
    }

    pub fn sum(&self) -> Sum {
        match self {
            Heading::Data(_, sum) | Heading::Hand(_, sum) => *sum,
        }
    }

    /// As lines show it.
    pub fn word(&self) -> String {
        match (self.kept(), self.sum()) {
            (false, [0, rest @ ..]) if rest == [0; 15] => "-".into(),
            (kept, sum) => format!("{}:{}", kept as u8, to_hex(&sum)),
        }
    }

    /// The ciphertext of a message: that of plain sealing with the data, or by hand ENC with the sum's first tau bits.
    pub fn seal(&self, set: u32, [key, nonce, text]: [&[u8]; 3]) -> Vec<u8> {
        match self {
            Heading::Data(data, _) => plain(set, [key, nonce, data, text]),
            Heading::Hand(_, sum) => {
                let p = reference(set);
                let T_A = MSB(p.tau, to_bits(sum));
                let [N, M] = [nonce, text].map(to_bits);
                let C = p.ENC_with(&Aes::new(key), &N, T_A, &M);
                to_bytes(&C.expect("a nonce of 12 bytes"))
            }
        }
    }
}

/// Plain sealing of inputs that it does not refuse.
pub fn plain(set: u32, inputs: [&[u8]; 4]) -> Vec<u8> {
    let (answer, result) = (SEAL.expected)(set, inputs);
    assert_eq!(answer, 0, "plain sealing is accepted");
    result
}
