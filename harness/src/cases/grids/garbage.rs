//! Grids that were never a symbol, and symbols with only some part left.

use super::texts::{lettered, some_data};
use super::{Shot, Take};
use crate::cases::sheet::Sheet;
use crate::random::Random;
use crate::reader::sides;
use crate::symbol::position::POSITIONS;
use crate::symbol::shape::{self, Shape};

const LABEL: &str = "garbage";

pub fn all(random: &mut Random, take: Take) {
    for side in sides() {
        for value in 0..3 {
            let modules = vec![value; side * side];
            take(Shot::new(LABEL, side as u32, modules));
        }
        for turn in 0..24 {
            // Up to 2, up to 1, and mostly one value.
            let modules = (0..side * side).map(|_| match turn % 3 {
                0 => random.below(3) as u8,
                1 => random.below(2) as u8,
                _ => random.pick(&[0, 0, 0, 0, 1, 2]),
            });
            take(Shot::new(LABEL, side as u32, modules.collect()));
        }
    }
    for shape in shape::every() {
        for turn in 0..16 {
            take(partly(random, shape, turn));
        }
    }
}

/// A symbol of which only the core, or the orientation modules, or one half, are left.
fn partly(random: &mut Random, shape: Shape, turn: usize) -> Shot {
    let data_words = some_data(random, shape);
    let (_, data) = lettered(random, shape, data_words);
    let mut sheet = Sheet::new(shape, &data, random.below(POSITIONS));
    let mut kept = vec![false; sheet.modules.len()];
    let core = match turn % 4 {
        0 => sheet.orientation_indexes(),
        1 | 2 => [sheet.orientation_indexes(), sheet.mode_indexes()].concat(),
        _ => {
            let side = shape.side();
            let half = side * side / 2;
            (0..side * side)
                .filter(|&i| (i < half) == (turn < 8))
                .collect()
        }
    };
    for index in core {
        kept[index] = true;
    }
    let most = random.within(1, 3);
    let value = random.below(3) as u8;
    for (module, kept) in sheet.modules.iter_mut().zip(kept) {
        if !kept {
            // All of one value now and then.
            *module = match turn % 5 {
                0 => value,
                _ => random.below(most) as u8,
            };
        }
    }
    Shot::of("symbols with a part left", sheet)
}
