//! The calls on a ledger, and what an accepted one is charged.

use crate::shared::scripts::{filled, OUT_SEED};

/// A sealing: whether the ledger is lent to it, by which only the line's first word differs; the nonce, the lengths
/// of data, text and output, and the seeds of data and text.
#[derive(Clone, Debug)]
pub struct Sealing {
    pub lent: bool,
    pub nonce: Vec<u8>,
    pub data: usize,
    pub text: usize,
    pub out: usize,
    pub seeds: [u8; 2],
}

/// A keeping: the name, and the length and the seed of the data.
#[derive(Clone, Debug)]
pub struct Keeping {
    pub name: u32,
    pub data: usize,
    pub seed: u8,
}

/// A sealing by name: the name, the nonce, the lengths of text and output, and the text's seed.
#[derive(Clone, Debug)]
pub struct ByName {
    pub name: u32,
    pub nonce: Vec<u8>,
    pub text: usize,
    pub out: usize,
    pub seed: u8,
}

#[derive(Clone, Debug)]
pub enum Call {
    Seal(Sealing),
    Keep(Keeping),
    Name(ByName),
    Carry,
}

impl Call {
    /// Of data and message, where the call is one that has them.
    fn blocks(&self) -> Option<usize> {
        match self {
            Call::Seal(c) => Some(c.data.div_ceil(16) + c.text.div_ceil(16)),
            Call::Keep(c) => Some(c.data.div_ceil(16)),
            Call::Name(c) => Some(c.text.div_ceil(16)),
            Call::Carry => None,
        }
    }

    /// What it is charged where it is accepted: its blocks, and where heartbeats are charged at least one. A carrying
    /// is charged nothing.
    pub fn charge(&self, heartbeats: bool) -> u64 {
        let blocks = self.blocks().map(|n| n.max(heartbeats as usize));
        blocks.unwrap_or(0) as u64
    }

    /// A heartbeat, or a keeping of no data.
    pub fn empty(&self) -> bool {
        self.blocks() == Some(0)
    }

    /// A sealing's.
    pub fn nonce(&self) -> Option<&Vec<u8>> {
        match self {
            Call::Seal(Sealing { nonce, .. }) | Call::Name(ByName { nonce, .. }) => Some(nonce),
            Call::Keep(_) | Call::Carry => None,
        }
    }

    /// What the output holds before the call; only sealings have one.
    pub fn out(&self) -> Vec<u8> {
        match self {
            Call::Seal(Sealing { out, .. }) | Call::Name(ByName { out, .. }) => {
                filled(*out, OUT_SEED)
            }
            Call::Keep(_) | Call::Carry => vec![],
        }
    }
}
