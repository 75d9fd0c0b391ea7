//! The maker of document 01, written from its words alone: message and percentage to grid.
//!
//! Stream and stuffing are `stream`'s, the check words `reference`'s long division.

pub mod core;
pub mod faults;
pub mod grid;
pub mod places;
pub mod position;
pub mod shape;

use self::grid::Grid;
use self::shape::{Family, Shape};
use crate::field::Field;
use crate::reference::Maker;
use crate::stream::write::{stream, stuffed};

/// The shape a message goes into, and its data words there.
pub struct Fit {
    pub shape: Shape,
    pub data: Vec<u16>,
}

impl Fit {
    /// K.
    pub fn check_words(&self) -> usize {
        self.shape.words() - self.data.len()
    }

    /// The side² modules.
    pub fn modules(&self) -> Vec<u8> {
        let mode = bits_of(&mode_words(self.shape, self.data.len()), 4);
        let block = block(self.shape.word_size(), &self.data, self.check_words());
        let grid = Grid::drawn(self.shape, &mode, &block_bits(self.shape, &block));
        assert!(grid.complete(), "every module of a symbol is drawn");
        grid.modules
    }
}

/// The fit, or the number of the refusal that no grid buffer changes: 1, 2 or 3.
pub fn fit(message: &[u8], percent: u32) -> Result<Fit, u32> {
    if message.is_empty() {
        return Err(1);
    }
    if !(5..=95).contains(&percent) {
        return Err(2);
    }
    let bits = stream(message);
    let mut size = 0;
    let mut data = Vec::new();
    for shape in shape::listed() {
        // "The stream is stuffed anew for each B."
        if shape.word_size() != size {
            size = shape.word_size();
            data = stuffed(&bits, size);
        }
        if data.len() <= shape.most_data(percent) {
            return Ok(Fit { shape, data });
        }
    }
    Err(3)
}

/// Bits of D, words of L and D, and check words: "Compact: L − 1 in 2 bits, D − 1 in 6, then
/// 5 check words. Full: 5 and 11 bits, then 6 check words."
pub fn mode_sizes(family: Family) -> (usize, usize, usize) {
    family.either((6, 2, 5), (11, 4, 6))
}

pub fn mode_words(shape: Shape, data_words: usize) -> Vec<u16> {
    let (length_bits, words, check_words) = mode_sizes(shape.family);
    let mode = (shape.layers - 1) << length_bits | (data_words - 1);
    let data: Vec<u16> = (0..words)
        .rev()
        .map(|i| (mode >> (4 * i) & 15) as u16)
        .collect();
    block(4, &data, check_words)
}

/// "The first Cb mod B bits are 0 …; then data words, then check words, each higher bit
/// first."
pub fn block_bits(shape: Shape, block: &[u16]) -> Vec<bool> {
    let size = shape.word_size();
    let mut bits = vec![false; shape.bits() % size as usize];
    bits.extend(bits_of(block, size));
    bits
}

/// The valid block that starts with the data words.
pub fn block(size: u32, data: &[u16], check_words: usize) -> Vec<u16> {
    let field = Field::of(size).expect("a listed size");
    Maker::new(field, check_words).block(data)
}

pub fn bits_of(words: &[u16], size: u32) -> Vec<bool> {
    let bits = |&word: &u16| (0..size).rev().map(move |place| word >> place & 1 == 1);
    words.iter().flat_map(bits).collect()
}
