//! Openings, and who seals what they have.

use super::numbers::nonce;
use crate::shared::expected::{set, SEAL};
use crate::shared::scripts::{filled, OUT_SEED};

/// A ciphertext: its bytes, or the length and the seed that they are made from.
#[derive(Clone, Debug)]
pub enum Text {
    Given(Vec<u8>),
    Noise(usize, u8),
}

/// The nonce, the length and the seed of the data, the ciphertext, and the output's length.
#[derive(Clone, Debug)]
pub struct Opening {
    pub nonce: Vec<u8>,
    pub data: usize,
    pub seed: u8,
    pub text: Text,
    pub out: usize,
}

impl Text {
    pub fn len(&self) -> usize {
        match self {
            Text::Given(bytes) => bytes.len(),
            Text::Noise(length, _) => *length,
        }
    }

    pub fn bytes(&self) -> Vec<u8> {
        match self {
            Text::Given(bytes) => bytes.clone(),
            Text::Noise(length, seed) => filled(*length, *seed),
        }
    }
}

impl Opening {
    pub fn data(&self) -> Vec<u8> {
        filled(self.data, self.seed)
    }

    /// What the output holds before the call.
    pub fn out(&self) -> Vec<u8> {
        filled(self.out, OUT_SEED)
    }

    /// Gives it another ciphertext.
    pub fn change(&mut self, change: impl Fn(&mut Vec<u8>)) {
        let mut bytes = self.text.bytes();
        change(&mut bytes);
        self.text = Text::Given(bytes);
    }
}

/// Who seals: a set, a key whose first bytes are used, and the first four bytes of the nonces.
#[derive(Clone, Copy)]
pub struct Sender {
    pub set: u32,
    pub key: [u8; 32],
    pub prefix: u32,
}

impl Sender {
    /// The opening of the message's sealing, with data made from a seed and an output that is just long enough.
    pub fn piece(&self, counter: u64, data: usize, seed: u8, message: &[u8]) -> Opening {
        let nonce = nonce(self.prefix, counter);
        let key = &self.key[..set(self.set).expect("a set").key];
        let inputs = [key, &nonce, &filled(data, seed), message];
        let (answer, sealed) = (SEAL.expected)(self.set, inputs);
        assert_eq!(answer, 0, "plain sealing is accepted");
        Opening {
            nonce,
            data,
            seed,
            text: Text::Given(sealed),
            out: message.len(),
        }
    }
}
