//! Who is measured.

use crate::cases::Set;
use crate::{nettle, ocb, tables, us};

/// What a call has beside its text.
pub struct Inputs {
    pub set: Set,
    pub key: Vec<u8>,
    pub nonce: Vec<u8>,
    pub data: Vec<u8>,
}

/// From the text to out, which is as long as the result. True where the call says that all is well.
pub type Call = fn(inputs: &Inputs, text: &[u8], out: &mut [u8]) -> bool;

pub struct Candidate {
    pub name: &'static str,
    /// Bytes that sealing adds.
    pub tag: fn(Set) -> usize,
    pub seal: Call,
    pub open: Call,
}

pub const US: Candidate = Candidate {
    name: "us",
    tag: |set| set.tag,
    seal: us::seal,
    open: us::open,
};

pub const OCB: Candidate = Candidate {
    name: "ocb",
    tag: |set| set.tag.max(ocb::LEAST_TAG),
    seal: ocb::seal,
    open: ocb::open,
};

/// The block cipher alone: nothing is authenticated.
pub const NETTLE: Candidate = Candidate {
    name: "nettle",
    tag: |_| 0,
    seal: nettle::encrypt,
    open: nettle::decrypt,
};

/// The block cipher alone.
pub const TABLES: Candidate = Candidate {
    name: "tables",
    tag: |_| 0,
    seal: tables::encrypt,
    open: tables::decrypt,
};

/// Those that one process can measure; the second process has OCB again, with hardware.
pub const CANDIDATES: [Candidate; 4] = [US, OCB, NETTLE, TABLES];
