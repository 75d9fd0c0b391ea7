//! Sides 19, 23 and 27: "four or more dark among the 40 modules at distance 5".

use super::texts::{lettered, most_data};
use super::{answer, Shot, Take};
use crate::cases::sheet::Sheet;
use crate::random::Random;
use crate::symbol::position::POSITIONS;
use crate::symbol::shape::Shape;

const LABEL: &str = "the ring that decides the family";

pub fn all(random: &mut Random, take: Take) {
    for layers in 1..=3 {
        for dark in 0..=8 {
            for position in 0..POSITIONS {
                full(random, Shape::full(layers), dark, position, take);
                compact(random, Shape::compact(layers + 1), dark, position, take);
            }
        }
    }
}

/// A full symbol is read with up to three dark modules, and taken for compact from four on.
fn full(random: &mut Random, shape: Shape, dark: usize, position: usize, take: Take) {
    let (mut sheet, message) = symbol(random, shape, position);
    sheet.darken(random, dark);
    let known = answer(&sheet, &message, 0, 0);
    let shot = Shot::of(LABEL, sheet);
    match dark < 4 {
        true => take(shot.knowing(known)),
        false => take(shot),
    }
}

/// The ring of a compact symbol is its core ring: with few dark modules left there, the grid
/// is read as full.
fn compact(random: &mut Random, shape: Shape, dark: usize, position: usize, take: Take) {
    let (mut sheet, _) = symbol(random, shape, position);
    let mut ring = sheet.ring_indexes();
    ring.retain(|&index| sheet.modules[index] == 1);
    for &index in random.shuffled(&ring).iter().skip(dark) {
        sheet.modules[index] = random.pick(&[0, 2]);
    }
    take(Shot::of(LABEL, sheet));
    // With the mode words light, the orientation modules decide.
    let (mut sheet, _) = symbol(random, shape, position);
    for index in sheet.mode_indexes() {
        sheet.modules[index] = 0;
    }
    let spoilt = random.below(4);
    sheet.spoil_orientation(random, spoilt);
    take(Shot::of(LABEL, sheet));
}

fn symbol(random: &mut Random, shape: Shape, position: usize) -> (Sheet, Vec<u8>) {
    let data_words = random.within(1, most_data(shape));
    let (message, data) = lettered(random, shape, data_words);
    (Sheet::new(shape, &data, position), message)
}
