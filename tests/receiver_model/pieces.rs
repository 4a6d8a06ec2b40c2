//! The pieces of the script.

use super::openings::Opening;

/// An opening, and the message that it has where it is accepted.
#[derive(Clone)]
pub struct Piece {
    pub opening: Opening,
    pub message: Vec<u8>,
}

impl Piece {
    /// The same with another ciphertext.
    pub fn changed(&self, change: impl Fn(&mut Vec<u8>)) -> Piece {
        let mut piece = self.clone();
        piece.opening.change(change);
        piece
    }

    /// The same with a bit of the last byte changed.
    pub fn damaged(&self) -> Piece {
        self.changed(|text| *text.last_mut().expect("a tag") ^= 1)
    }

    pub fn with_out(&self, out: usize) -> Piece {
        let mut piece = self.clone();
        piece.opening.out = out;
        piece
    }
}
