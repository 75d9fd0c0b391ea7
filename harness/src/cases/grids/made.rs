//! Symbols of all 36 shapes with damage of every kind.

use super::texts::{drawn, lettered, some_data};
use super::{answer, Shot, Take};
use crate::cases::sheet::{Damage, Sheet};
use crate::random::Random;
use crate::reader::sampled::UNREAD;
use crate::symbol::position::POSITIONS;
use crate::symbol::shape;

/// A symbol to be spoilt, and its message.
struct Draw<'a> {
    random: &'a mut Random,
    sheet: Sheet,
    message: Vec<u8>,
}

/// Gone through in turn for every shape; the edges of the limit more than once.
const KINDS: [fn(Draw) -> Shot; 16] = [
    within,
    at_limit,
    at_limit,
    at_limit,
    one_beyond,
    one_beyond,
    mode_at_limit,
    mode_at_limit,
    mode_beyond,
    mode_beyond,
    orientation,
    orientation,
    rest,
    scattered,
    patch,
    clean,
];

pub fn all(random: &mut Random, count: usize, take: Take) {
    let shapes: Vec<_> = shape::every().collect();
    for i in 0..count {
        let shape = shapes[i % shapes.len()];
        let kind = KINDS[i / shapes.len() % KINDS.len()];
        let data_words = some_data(random, shape);
        // Every other one fills its data words, so that D is met exactly.
        let (message, data) = match i / 5 % 2 {
            0 => drawn(random, i, shape, data_words),
            _ => lettered(random, shape, data_words),
        };
        let position = random.below(POSITIONS);
        let sheet = Sheet::new(shape, &data, position);
        let bytes = message.len();
        let shot = kind(Draw {
            random,
            sheet,
            message,
        });
        take(Shot { bytes, ..shot });
    }
}

/// Damage with 2r + e equal to `total`, which is at most K + 1.
pub fn split(random: &mut Random, total: usize, most_flat: usize) -> Damage {
    let some = random.within(0, total);
    let marked = random.pick(&[0, some, some, total]);
    // The rest has to be even.
    let marked = marked + (total - marked) % 2;
    let flat = random.within(0, marked.min(most_flat));
    let flat = random.pick(&[0, flat, marked.min(most_flat)]);
    Damage {
        wrong: (total - marked) / 2,
        unread: marked - flat,
        flat,
    }
}

impl Draw<'_> {
    /// Spoils the block by 2r + e; answers the damage.
    fn block(&mut self, total: usize) -> Damage {
        let damage = split(self.random, total, self.sheet.data_words);
        self.sheet.spoil_block(self.random, damage);
        damage
    }

    fn mode(&mut self, total: usize) {
        let damage = split(self.random, total, 0);
        self.sheet.spoil_mode(self.random, damage);
    }

    /// The shot of a block within its limit.
    fn read(self, label: &'static str, damage: Damage) -> Shot {
        let wrong = damage.wrong + damage.flat;
        let known = answer(&self.sheet, &self.message, damage.unread, wrong);
        Shot::of(label, self.sheet).knowing(known)
    }

    fn left_open(self, label: &'static str) -> Shot {
        Shot::of(label, self.sheet)
    }
}

fn clean(draw: Draw) -> Shot {
    draw.read("a clean symbol", Damage::default())
}

fn within(mut draw: Draw) -> Shot {
    let total = draw.random.within(0, draw.sheet.check_words());
    let damage = draw.block(total);
    draw.read("a block within the limit", damage)
}

/// Exactly K, or one less.
fn at_limit(mut draw: Draw) -> Shot {
    let total = draw.sheet.check_words() - draw.random.below(4) / 3;
    let damage = draw.block(total);
    let spoilt = draw.random.below(2);
    draw.sheet.spoil_orientation(draw.random, spoilt);
    draw.read("a block at 2r + e = K", damage)
}

fn one_beyond(mut draw: Draw) -> Shot {
    let total = draw.sheet.check_words() + 1;
    let damage = draw.block(total);
    // More than K marked words are beyond every block.
    let beyond = damage.unread + damage.flat == total;
    let label = "a block at 2r + e = K + 1";
    match beyond {
        true => draw.left_open(label).refused(vec![17]),
        false => draw.left_open(label),
    }
}

fn mode_at_limit(mut draw: Draw) -> Shot {
    let total = draw.sheet.mode_checks() - draw.random.below(4) / 3;
    draw.mode(total);
    let within = draw.random.within(0, draw.sheet.check_words());
    let damage = draw.block(within);
    draw.read("mode words at 2r + e = K", damage)
}

/// The block behind them is whole.
fn mode_beyond(mut draw: Draw) -> Shot {
    let total = draw.sheet.mode_checks() + 1;
    draw.mode(total);
    draw.left_open("mode words at 2r + e = K + 1")
}

/// None to six orientation modules wrong or unread: two may tie.
fn orientation(mut draw: Draw) -> Shot {
    let count = draw.random.below(7);
    draw.sheet.spoil_orientation(draw.random, count);
    let total = draw.random.below(3).min(draw.sheet.check_words());
    let damage = draw.block(total);
    let label = "orientation modules spoilt";
    match count {
        0 | 1 => draw.read(label, damage),
        _ => draw.left_open(label),
    }
}

/// Target, reference grid and skipped bits of any value.
fn rest(mut draw: Draw) -> Shot {
    draw.sheet.spoil_rest(draw.random);
    let total = draw.random.within(0, draw.sheet.check_words());
    let damage = draw.block(total);
    draw.read("modules that nothing depends on", damage)
}

/// Modules anywhere turned or unread, one in many.
fn scattered(mut draw: Draw) -> Shot {
    let one_in = draw.random.pick(&[8, 20, 50, 150, 500]);
    let style = draw.random.below(3);
    for module in &mut draw.sheet.modules {
        if draw.random.chance(one_in) {
            *module = match style {
                0 => UNREAD,
                1 => 1 - *module,
                _ => draw.random.below(3) as u8,
            };
        }
    }
    draw.left_open("modules spoilt anywhere")
}

/// A square of light, dark or unread modules.
fn patch(mut draw: Draw) -> Shot {
    let side = draw.sheet.shape.side();
    let size = draw.random.within(2, side / 2);
    let (top, left) = (
        draw.random.below(side - size),
        draw.random.below(side - size),
    );
    let value = draw.random.below(3) as u8;
    for row in top..top + size {
        draw.sheet.modules[row * side + left..][..size].fill(value);
    }
    draw.left_open("a patch")
}
