//! Every single module of a small symbol turned or unread, in every position.

use super::texts::{lettered, most_data};
use super::{answer, Shot, Take};
use crate::cases::sheet::Sheet;
use crate::random::Random;
use crate::reader::sampled::UNREAD;
use crate::symbol::position::POSITIONS;
use crate::symbol::shape::Shape;

pub fn all(random: &mut Random, take: Take) {
    for position in 0..POSITIONS {
        every_module(random, Shape::compact(1), position, take);
        let full = Shape::full(1 + position / 2);
        every_module(random, full, position, take);
    }
}

/// One module spoils at most one word, of the mode message or of the block, or one of the
/// twelve orientation modules: all these are within the limits.
fn every_module(random: &mut Random, shape: Shape, position: usize, take: Take) {
    let data_words = random.within(1, most_data(shape));
    let (message, data) = lettered(random, shape, data_words);
    let words = Sheet::new(shape, &data, position).word_indexes().concat();
    for index in 0..shape.side().pow(2) {
        for unread in [false, true] {
            let mut sheet = Sheet::new(shape, &data, position);
            let module = &mut sheet.modules[index];
            *module = if unread { UNREAD } else { 1 - *module };
            let counted = usize::from(words.contains(&index));
            let (unread, wrong) = match unread {
                true => (counted, 0),
                false => (0, counted),
            };
            let known = answer(&sheet, &message, unread, wrong);
            let shot = Shot {
                bytes: message.len(),
                ..Shot::of("every single module", sheet)
            };
            take(shot.knowing(known));
        }
    }
}
