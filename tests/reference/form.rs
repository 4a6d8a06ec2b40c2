//! The three forms of ENC.

use crate::mode::cba::Cba;

/// The way ENC takes for a message of this length: 0 short (|M| <= l), 1 joined
/// (|M_m| <= n - tau and m >= 2), 2 separate.
pub fn form(p: &Cba, message: usize) -> usize {
    if message <= p.l {
        return 0;
    }
    let m = (message - p.l).div_ceil(p.n);
    let last = message - p.l - (m - 1) * p.n;
    if m >= 2 && last + p.tau <= p.n {
        1
    } else {
        2
    }
}

pub fn by_form(count: [usize; 3]) -> String {
    format!(
        "short {}, joined {}, separate {}",
        count[0], count[1], count[2]
    )
}
