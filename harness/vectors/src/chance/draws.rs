//! Draws, made from one number.

use super::tables::{BYTES, LENGTHS};

/// The number that draws are made from.
#[derive(Clone, Debug, PartialEq, Eq)]
pub struct Draws(u32);

impl Draws {
    pub fn from(x: u32) -> Draws {
        Draws(x)
    }

    /// What further draws will be made from.
    pub fn x(&self) -> u32 {
        self.0
    }

    /// One draw. The low half of the number repeats soon and is not shown.
    pub fn draw(&mut self) -> u16 {
        self.0 = self.0.wrapping_mul(1_664_525).wrapping_add(1_013_904_223);
        (self.0 >> 16) as u16
    }

    pub fn below(&mut self, limit: usize) -> usize {
        usize::from(self.draw()) % limit
    }

    pub fn any_byte(&mut self) -> u8 {
        self.below(256) as u8
    }

    /// So many bytes, each drawn below `limit`.
    pub fn bytes_below(&mut self, count: usize, limit: usize) -> Vec<u8> {
        (0..count).map(|_| self.below(limit) as u8).collect()
    }

    /// A byte of a row; one in eight is any byte at all.
    pub fn byte_of(&mut self, row: usize) -> u8 {
        let h = usize::from(self.draw());
        if h % 8 == 0 {
            (h / 256) as u8
        } else {
            BYTES[row][h / 8 % 16]
        }
    }

    /// Mostly below `limit`; one in sixteen is any byte at all.
    pub fn mostly_below(&mut self, limit: usize) -> u8 {
        let h = usize::from(self.draw());
        if h % 16 == 0 {
            (h / 256) as u8
        } else {
            (h / 16 % limit) as u8
        }
    }

    /// Pulses at which something is due, give or take two.
    pub fn length(&mut self) -> u16 {
        let length = LENGTHS[self.below(LENGTHS.len())];
        length + self.below(5) as u16 - 2
    }
}
