//! "Modules and shapes": the 36 shapes and their sizes.

#[derive(Clone, Copy, PartialEq, Eq, Debug)]
pub enum Family {
    Compact,
    Full,
}

use Family::{Compact, Full};

impl Family {
    /// The first of two things for the compact family, the second for the full one.
    pub fn either<T>(self, compact: T, full: T) -> T {
        match self {
            Compact => compact,
            Full => full,
        }
    }
}

#[derive(Clone, Copy, PartialEq, Eq, Debug)]
pub struct Shape {
    pub family: Family,
    pub layers: usize,
}

/// "K at least ceil(percent·n/100) + 3"
const LEAST_EXTRA: usize = 3;

/// "Compact D is at most 64."
const MOST_COMPACT: usize = 64;

impl Shape {
    pub fn compact(layers: usize) -> Shape {
        let family = Compact;
        Shape { family, layers }
    }

    pub fn full(layers: usize) -> Shape {
        let family = Full;
        Shape { family, layers }
    }

    /// The first of two numbers for a compact shape, the second for a full one.
    pub fn either<T>(self, compact: T, full: T) -> T {
        self.family.either(compact, full)
    }

    /// "numbered 1 to 4 for C1 to C4, 5 to 36 for F1 to F32"
    pub fn number(self) -> usize {
        self.layers + self.either(0, 4)
    }

    /// C1 to C4, F1 to F32.
    pub fn name(self) -> String {
        format!("{}{}", self.either('C', 'F'), self.layers)
    }

    pub fn side(self) -> usize {
        let layers = self.layers;
        let lines = 2 * ((6 + 2 * layers) / 15);
        self.either(11 + 4 * layers, 15 + 4 * layers + lines)
    }

    /// Cb.
    pub fn bits(self) -> usize {
        (self.either(88, 112) + 16 * self.layers) * self.layers
    }

    /// B.
    pub fn word_size(self) -> u32 {
        match self.layers {
            1..=2 => 6,
            3..=8 => 8,
            9..=22 => 10,
            _ => 12,
        }
    }

    /// n.
    pub fn words(self) -> usize {
        self.bits() / self.word_size() as usize
    }

    /// The most data words at a percentage from 5 to 95; 0 where there is no room for one.
    pub fn most_data(self, percent: u32) -> usize {
        let n = self.words();
        let least_checks = (percent as usize * n).div_ceil(100) + LEAST_EXTRA;
        let most = n.saturating_sub(least_checks);
        self.either(most.min(MOST_COMPACT), most)
    }
}

/// "The reader takes all 36": in the order of their numbers.
pub fn every() -> impl Iterator<Item = Shape> {
    (1..=4).map(Shape::compact).chain((1..=32).map(Shape::full))
}

/// "The maker uses C1 to C4, then F4 to F32": in the order in which they are tried.
pub fn listed() -> impl Iterator<Item = Shape> {
    (1..=4).map(Shape::compact).chain((4..=32).map(Shape::full))
}
