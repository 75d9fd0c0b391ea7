//! The modules of a symbol, drawn one part after the other.

use super::core::{self, distance, square, Offset};
use super::places;
use super::shape::{Family, Shape};

/// One byte a module, "row by row from the top: 0 light, 1 dark".
pub struct Grid {
    shape: Shape,
    pub modules: Vec<u8>,
}

/// What a module holds before anything is drawn there.
const BLANK: u8 = 9;

impl Grid {
    /// The symbol of a shape with the given bits of the mode message and of the data places.
    pub fn drawn(shape: Shape, mode: &[bool], data: &[bool]) -> Grid {
        let side = shape.side();
        let modules = vec![BLANK; side * side];
        let mut grid = Grid { shape, modules };
        grid.target();
        grid.orientation();
        grid.mode(mode);
        if shape.family == Family::Full {
            grid.reference();
        }
        grid.data(data);
        grid
    }

    /// Whether every module was drawn.
    pub fn complete(&self) -> bool {
        !self.modules.contains(&BLANK)
    }

    /// Draws the module at an offset from the centre, x right, y down. No module has two
    /// meanings.
    fn set(&mut self, (x, y): Offset, dark: bool) {
        let module = &mut self.modules[core::index((x, y), self.shape.side())];
        assert_eq!(*module, BLANK, "({x}, {y}) of {:?} twice", self.shape);
        *module = dark.into();
    }

    /// "modules with max(|x|,|y|) at most 4 (compact) or 6 (full) are dark when that maximum
    /// is even"
    fn target(&mut self) {
        let most = self.shape.either(4, 6);
        for (x, y) in square(most) {
            self.set((x, y), distance(x, y) % 2 == 0);
        }
    }

    fn orientation(&mut self) {
        let modules = core::orientation(self.shape.family);
        for (module, bit) in modules.into_iter().zip(core::ORIENTATION) {
            self.set(module, bit == 1);
        }
    }

    fn mode(&mut self, bits: &[bool]) {
        let modules = core::mode(self.shape.family);
        assert_eq!(bits.len(), modules.len(), "the mode message's bits");
        for (module, &bit) in modules.into_iter().zip(bits) {
            self.set(module, bit);
        }
    }

    /// "(full only, outside the target): modules with x or y a multiple of 16 are dark when
    /// x + y is even"
    fn reference(&mut self) {
        let half = self.shape.side() as i32 / 2;
        for (x, y) in square(half) {
            if distance(x, y) > 6 && (x % 16 == 0 || y % 16 == 0) {
                self.set((x, y), (x + y) % 2 == 0);
            }
        }
    }

    fn data(&mut self, bits: &[bool]) {
        let modules = places::offsets(self.shape);
        assert_eq!(bits.len(), modules.len(), "the block's bits");
        for (module, &bit) in modules.into_iter().zip(bits) {
            self.set(module, bit);
        }
    }
}
