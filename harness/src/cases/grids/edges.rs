//! What the mode words may say: D up to n − 3 and beyond, and L of every side.

use super::texts::{lettered, most_data, sayable, DEAR};
use super::{answer, Shot, Take};
use crate::cases::sheet::Sheet;
use crate::random::Random;
use crate::symbol::position::POSITIONS;
use crate::symbol::shape::{self, Shape};

pub fn all(random: &mut Random, take: Take) {
    for shape in shape::every() {
        // Large ones are dear, and their positions are met elsewhere.
        let step = if shape.words() > DEAR { 4 } else { 1 };
        let first = random.below(step);
        for position in (first..POSITIONS).step_by(step) {
            lengths(random, shape, position, take);
        }
        layers(random, shape, take);
        for _ in 0..6 {
            take(another(random, shape));
        }
    }
}

/// Another lawful D than the made one. A block with K check words is valid with fewer too:
/// said to have more data words, it reads on through its check words, flat ones marked.
fn another(random: &mut Random, shape: Shape) -> Shot {
    let most = most_data(shape);
    let made = most - random.below(most.min(30));
    let said = match random.chance(4) {
        true => random.within(most.saturating_sub(60).max(1), most),
        false => random.within(made, most),
    };
    let (_, data) = lettered(random, shape, made);
    let position = random.below(POSITIONS);
    let sheet = Sheet::saying(shape, &data, position, (shape.layers, said));
    Shot::of("another number of data words said", sheet)
}

/// D of 1, n − 3 (C4: 64), n − 2, n − 1 and n over a block that goes with it, so that a reader which
/// let one through would find a message; and larger ones.
fn lengths(random: &mut Random, shape: Shape, position: usize, take: Take) {
    let n = shape.words();
    for data_words in [1, most_data(shape), n - 2, n - 1, n] {
        if data_words > sayable(shape) {
            continue;
        }
        let (message, data) = lettered(random, shape, data_words);
        let sheet = Sheet::new(shape, &data, position);
        let known = answer(&sheet, &message, 0, 0);
        let bytes = message.len();
        let shot = Shot {
            bytes,
            ..Shot::of("the most data words", sheet)
        };
        take(match data_words <= n - 3 {
            true => shot.knowing(known),
            false => shot.refused(vec![16]),
        });
    }
    for data_words in [n + 1, random.within(n + 1, 2_048), sayable(shape)] {
        if (n - 2..=sayable(shape)).contains(&data_words) {
            let said = (shape.layers, data_words);
            take(saying(random, shape, position, said));
        }
    }
}

/// L of every other side, with D of 1, of the largest, and as made.
fn layers(random: &mut Random, shape: Shape, take: Take) {
    for other in 1..=shape.either(4, 32) {
        let named = Shape {
            layers: other,
            ..shape
        };
        if other != shape.layers {
            let any = random.within(1, most_data(named));
            let data_words = random.pick(&[1, any, sayable(shape)]);
            let position = random.below(POSITIONS);
            take(saying(random, shape, position, (other, data_words)));
        }
    }
}

/// A symbol whose mode words say what is refused with 16.
fn saying(random: &mut Random, shape: Shape, position: usize, said: (usize, usize)) -> Shot {
    let some = most_data(shape).min(40);
    let (message, data) = lettered(random, shape, some);
    let sheet = Sheet::saying(shape, &data, position, said);
    Shot {
        bytes: message.len(),
        ..Shot::of("mode words that don't go with the side", sheet).refused(vec![16])
    }
}
