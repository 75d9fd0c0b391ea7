//! A symbol in a position, and where its words stand.

mod spoil;

pub use self::spoil::Damage;

use crate::symbol::core::{self, Offset};
use crate::symbol::grid::Grid;
use crate::symbol::position::{moved, placed};
use crate::symbol::shape::Shape;
use crate::symbol::{bits_of, block, block_bits, mode_sizes, mode_words, places};

#[derive(Clone)]
pub struct Sheet {
    pub shape: Shape,
    pub position: usize,
    /// In that position.
    pub modules: Vec<u8>,
    pub data_words: usize,
    pub block: Vec<u16>,
    mode: Vec<u16>,
}

impl Sheet {
    /// The symbol of a shape for data words; check words fill the rest of the block.
    pub fn new(shape: Shape, data: &[u16], position: usize) -> Sheet {
        Sheet::saying(shape, data, position, (shape.layers, data.len()))
    }

    /// The same with mode words that say L and D otherwise.
    pub fn saying(
        shape: Shape,
        data: &[u16],
        position: usize,
        (layers, data_words): (usize, usize),
    ) -> Sheet {
        let block = block(shape.word_size(), data, shape.words() - data.len());
        let mode = mode_words(Shape { layers, ..shape }, data_words);
        let grid = Grid::drawn(shape, &bits_of(&mode, 4), &block_bits(shape, &block));
        Sheet {
            shape,
            position,
            modules: moved(&grid.modules, shape.side(), position),
            data_words: data.len(),
            block,
            mode,
        }
    }

    /// K.
    pub fn check_words(&self) -> usize {
        self.block.len() - self.data_words
    }

    /// K of the mode words, 5 or 6.
    pub fn mode_checks(&self) -> usize {
        mode_sizes(self.shape.family).2
    }

    /// Where modules of the made tag stand in the row of all modules.
    fn indexes(&self, offsets: Vec<Offset>) -> Vec<usize> {
        let there = offsets
            .into_iter()
            .map(|offset| placed(offset, self.position));
        there
            .map(|offset| core::index(offset, self.shape.side()))
            .collect()
    }

    pub fn orientation_indexes(&self) -> Vec<usize> {
        self.indexes(core::orientation(self.shape.family))
    }

    pub fn mode_indexes(&self) -> Vec<usize> {
        self.indexes(core::mode(self.shape.family))
    }

    /// The modules at distance 5, which decide the family at sides 19, 23 and 27.
    pub fn ring_indexes(&self) -> Vec<usize> {
        self.indexes(core::at_distance(5).collect())
    }

    /// The modules that a word of the block stands on, for each word.
    pub fn word_indexes(&self) -> Vec<Vec<usize>> {
        let size = self.shape.word_size() as usize;
        let all = self.indexes(places::offsets(self.shape));
        let bits = &all[self.shape.bits() % size..];
        bits.chunks(size).map(<[usize]>::to_vec).collect()
    }
}
