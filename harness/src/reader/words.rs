//! Words as they were read.

use super::sampled::{Sampled, UNREAD};
use crate::symbol::core::Offset;
use crate::symbol::position::placed;

pub struct Word {
    /// Unread bits are taken for 0; nothing may depend on them.
    pub value: u16,
    pub unread: bool,
    size: u32,
}

/// What a word is part of, which decides its marks.
#[derive(Clone, Copy, PartialEq, Eq)]
pub enum Part {
    Mode,
    Data,
    Check,
}

impl Word {
    /// Fully read, and "all 0s or all 1s".
    pub fn flat(&self) -> bool {
        !self.unread && flat(self.value, self.size)
    }
}

/// Whether a value of a size is all 0s or all 1s.
pub fn flat(value: u16, size: u32) -> bool {
    value == 0 || u32::from(value) == (1 << size) - 1
}

/// The words whose bits, "each higher bit first", stand at these offsets of the made tag.
pub fn of(grid: &Sampled, offsets: &[Offset], position: usize, size: u32) -> Vec<Word> {
    let modules = offsets
        .iter()
        .map(|&offset| grid.at(placed(offset, position)));
    let modules: Vec<u8> = modules.collect();
    let words = modules.chunks(size as usize);
    words.map(|bits| word(bits, size)).collect()
}

fn word(bits: &[u8], size: u32) -> Word {
    let dark = bits.iter().map(|&bit| u16::from(bit == 1));
    Word {
        value: dark.fold(0, |value, bit| value << 1 | bit),
        unread: bits.contains(&UNREAD),
        size,
    }
}

pub fn values(words: &[Word]) -> Vec<u16> {
    words.iter().map(|word| word.value).collect()
}
