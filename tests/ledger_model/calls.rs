//! Random calls, with some refusals wished for.

use super::headings::{Heading, NAMES};
use super::model::{capacity, Ledger};
use super::model_calls::{ByName, Call, Keeping, Sealing};
use crate::shared::expected::{set, MOST_DATA, MOST_TEXT};
use crate::shared::inputs::DATA;
use crate::shared::random::Random;
use crate::shared::scripts::MOST_HEADER;

#[derive(Clone, Copy, PartialEq)]
enum Kind {
    Seal,
    Keep,
    Name,
}

impl Kind {
    /// The refusals that a call can be made for; the ledger decides on 1. 10 is wished for more often than the others,
    /// for not every ledger is near its capacity.
    fn wishes(self) -> &'static [usize] {
        match self {
            Kind::Seal => &[3, 4, 5, 7, 9, 10, 10, 12],
            Kind::Keep => &[4, 10, 10, 13],
            Kind::Name => &[3, 5, 7, 9, 10, 10, 12, 13],
        }
    }
}

impl Random {
    /// A length of so many blocks.
    fn of_blocks(&mut self, blocks: usize) -> usize {
        match blocks {
            0 => 0,
            _ => 16 * blocks - self.below(16),
        }
    }

    /// Lengths of data and text, 0 for what the call has not: where the capacity is near, those that just fill it or
    /// just do not fit.
    fn data_and_text(&mut self, ledger: &Ledger, kind: Kind, spent: bool) -> [usize; 2] {
        let most_data = if kind == Kind::Name { 0 } else { MOST_DATA };
        let most_text = if kind == Kind::Keep { 0 } else { MOST_TEXT };
        let most_blocks = (most_data + most_text) / 16;
        let most = capacity(ledger.set).unwrap_or(0);
        let left = most.saturating_sub(ledger.total as u128);
        let blocks = left + spent as u128;
        let near = left <= 16 || blocks <= most_blocks as u128 && self.one_in(8);
        if near && (spent || self.one_in(2)) {
            // A newer ledger charges a block for none as well.
            let none = ledger.heartbeats && blocks == 1 && self.one_in(2);
            let blocks = if none { 0 } else { blocks as usize };
            let most_data = blocks.min(most_data / 16);
            let least_data = blocks.saturating_sub(most_text / 16);
            let data = least_data + self.below(most_data - least_data + 1);
            return [self.of_blocks(data), self.of_blocks(blocks - data)];
        }
        let data = match self.below(16) {
            0 => self.pick(&DATA),
            1..=5 => 0,
            _ => self.below(40),
        };
        let text = match self.below(256) {
            0 => self.pick(&[4096, MOST_TEXT - 1, MOST_TEXT]),
            1..=64 => 0,
            65..=128 => self.pick(&[1, 8, 15, 16, 17, 31, 32, 33, 48]),
            _ => self.below(100),
        };
        [data.min(most_data), text.min(most_text)]
    }

    /// A name above 7, mostly one that is a kept name, or else 0, to who looks at some of the bits.
    fn above_7(&mut self, kept: &[u32]) -> u32 {
        let like = self.one_of(kept).unwrap_or(0);
        match self.below(8) {
            0 => 8,
            1 => u32::MAX,
            2 => 8 + self.below(8) as u32,
            3 => (self.number() as u32).max(8),
            _ => like + self.pick(&[8, 16, 256, 65536, 1 << 24, 1 << 31]) as u32,
        }
    }

    fn one_of(&mut self, names: &[u32]) -> Option<u32> {
        match names.len() {
            0 => None,
            n => Some(names[self.below(n)]),
        }
    }

    fn any_name(&mut self) -> u32 {
        self.below(NAMES) as u32
    }

    /// Half the keepings are under a name with something kept, where there is one.
    fn name_to_keep(&mut self, ledger: &Ledger, refused: bool) -> u32 {
        let kept = ledger.kept();
        match self.one_of(&kept) {
            _ if refused => self.above_7(&kept),
            Some(name) if self.one_in(2) => name,
            _ => self.any_name(),
        }
    }

    /// One with something kept. Where it is to be refused, half the time one above 7, and else one with nothing kept,
    /// which has a sum with no flag where there is such a one.
    fn name_to_seal(&mut self, ledger: &Ledger, refused: bool) -> u32 {
        let kept = ledger.kept();
        let all = 0..NAMES as u32;
        let mut others: Vec<u32> = all.filter(|name| !kept.contains(name)).collect();
        if others.iter().any(|&name| has_sum(ledger, name)) {
            others.retain(|&name| has_sum(ledger, name));
        }
        let name = match refused {
            true if self.one_in(2) => Some(self.above_7(&kept)),
            true => self.one_of(&others),
            false => self.one_of(&kept),
        };
        name.unwrap_or_else(|| self.any_name())
    }

    /// A call on the ledger, with some of the refusals wished for. Carryings are seldom, so that an older ledger has
    /// some calls before the first one.
    pub fn call(&mut self, ledger: &Ledger) -> Call {
        let carryings = match (set(ledger.set), ledger.heartbeats) {
            (None, _) => 6,
            (Some(_), false) => 8,
            (Some(_), true) => 16,
        };
        if self.one_in(carryings) {
            return Call::Carry;
        }
        let kind = match self.below(16) {
            0..=4 => Kind::Seal,
            5..=8 => Kind::Keep,
            // Where nothing is kept a sealing by name is refused.
            _ if ledger.kept().is_empty() && !self.one_in(4) => Kind::Keep,
            _ => Kind::Name,
        };
        let wishes = [0, 0, 0, 0, 0, 0, 1, 1, 2, 3][self.below(10)];
        let wished: Vec<usize> = (0..wishes).map(|_| self.pick(kind.wishes())).collect();
        self.call_of(kind, ledger, &wished)
    }

    /// A sealing on the ledger, of either kind, that has this nonce and nothing else to be refused for.
    pub fn sealing_with(&mut self, ledger: &Ledger, other: &[u8]) -> Call {
        let kind = match ledger.kept().is_empty() || self.one_in(2) {
            true => Kind::Seal,
            false => Kind::Name,
        };
        let mut call = self.call_of(kind, ledger, &[]);
        if let Call::Seal(Sealing { nonce, .. }) | Call::Name(ByName { nonce, .. }) = &mut call {
            *nonce = other.to_vec();
        }
        call
    }

    /// The length of an output for a message of so many bytes.
    fn room(&mut self, ledger: &Ledger, text: usize, short: bool) -> usize {
        let need = text + set(ledger.set).map_or(12, |s| s.t);
        match short {
            true => self.pick(&[0, need - 1, need / 2, need - 4]),
            false => need + self.pick(&[0, 0, 1, 2, 50]),
        }
    }

    /// A keeping of data of so many bytes, at times of those that are kept there, where no refusal is wished for.
    fn keeping(&mut self, ledger: &Ledger, wished: &[usize], data: usize, seed: u8) -> Keeping {
        let name = self.name_to_keep(ledger, wished.contains(&13));
        let again = same_again(ledger, name).filter(|_| wished.is_empty());
        let again = again.filter(|_| self.one_in(4));
        again.unwrap_or(Keeping { name, data, seed })
    }

    /// A call of the kind, with these refusals wished for.
    fn call_of(&mut self, kind: Kind, ledger: &Ledger, wished: &[usize]) -> Call {
        let wish = |answer| wished.contains(&answer);
        let stale = wish(9) || !ledger.begun && self.one_in(2);
        let mut nonce = self.nonce(ledger, stale, wish(12));
        let [mut data, mut text] = self.data_and_text(ledger, kind, wish(10));
        if wish(3) {
            let length = self.pick(&[0, 1, 2, 8, 11, 13, 16, 24, 51]);
            nonce.resize(length, 0);
        }
        if wish(4) {
            data = self.pick(&[4097, 4098, 4112, MOST_HEADER]);
        }
        if wish(5) {
            text = MOST_TEXT + self.pick(&[1, 2, 16]);
        }
        let out = self.room(ledger, text, wish(7));
        let seeds = [self.number() as u8, self.number() as u8];
        match kind {
            Kind::Seal => Call::Seal(Sealing {
                lent: self.one_in(2),
                nonce,
                data,
                text,
                out,
                seeds,
            }),
            Kind::Keep => Call::Keep(self.keeping(ledger, wished, data, seeds[0])),
            Kind::Name => Call::Name(ByName {
                name: self.name_to_seal(ledger, wish(13)),
                nonce,
                text,
                out,
                seed: seeds[1],
            }),
        }
    }
}

/// A keeping of the data that are kept there.
fn same_again(ledger: &Ledger, name: u32) -> Option<Keeping> {
    let Heading::Data(data, _) = ledger.heading(name)? else {
        return None;
    };
    Some(Keeping {
        name,
        data: data.len(),
        seed: data.first().copied().unwrap_or(0),
    })
}

fn has_sum(ledger: &Ledger, name: u32) -> bool {
    ledger.heading(name).is_some_and(|h| h.sum() != [0; 16])
}
