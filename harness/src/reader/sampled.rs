//! A sampled grid that is square and whole, and its modules by their offset.

use super::sides;
use crate::symbol::core::{Offset, ORIENTATION};
use crate::symbol::position::placed;
use crate::symbol::{core, shape::Family};

/// "0 light, 1 dark. The reader also takes 2, unread."
pub const DARK: u8 = 1;
pub const UNREAD: u8 = 2;

pub struct Sampled<'a> {
    modules: &'a [u8],
    pub side: usize,
}

impl Sampled<'_> {
    /// 11, 12 and 13: "side is not a shape's", "grid length isn't side²", "a module above 2".
    pub fn new(modules: &[u8], side: u32) -> Result<Sampled<'_>, u32> {
        let side = side as usize;
        if !sides().contains(&side) {
            return Err(11);
        }
        if modules.len() != side * side {
            return Err(12);
        }
        if modules.iter().any(|&module| module > UNREAD) {
            return Err(13);
        }
        Ok(Sampled { modules, side })
    }

    /// The module at an offset from the centre.
    pub fn at(&self, offset: Offset) -> u8 {
        self.modules[core::index(offset, self.side)]
    }

    /// How many of "the 40 modules at distance 5" have a value.
    pub fn at_5(&self, value: u8) -> usize {
        let ring = core::at_distance(5);
        ring.filter(|&offset| self.at(offset) == value).count()
    }

    /// How many of the twelve orientation modules are as in a position; "unread matches
    /// nothing".
    pub fn matches(&self, family: Family, position: usize) -> usize {
        let modules = core::orientation(family).into_iter().zip(ORIENTATION);
        let same = modules.filter(|&(offset, bit)| self.at(placed(offset, position)) == bit);
        same.count()
    }
}
