//! Every pattern of light and dark orientation modules, and many with unread ones: "The
//! position with most matches is taken if it has at least 9 and no other has as many."

use super::texts::lettered;
use super::{Shot, Take};
use crate::cases::sheet::Sheet;
use crate::random::Random;
use crate::symbol::position::POSITIONS;
use crate::symbol::shape::Shape;

/// Patterns with unread modules, of either family.
const BLURRED: usize = 600;

pub fn all(random: &mut Random, take: Take) {
    let (mut compact, mut full) = (
        Base::of(random, Shape::compact(1)),
        Base::of(random, Shape::full(4)),
    );
    for pattern in 0..1 << 12 {
        let base = if pattern % 4 == 3 {
            &mut full
        } else {
            &mut compact
        };
        take(base.with(|place| (pattern >> place & 1) as u8));
    }
    for _ in 0..BLURRED {
        // A made pattern with a few modules changed, so that many still have 9 matches.
        for base in [&mut compact, &mut full] {
            *base = Base::of(random, base.shape);
            let made = base.pattern();
            let changed = random.within(1, 5);
            let places = random.places(12, changed);
            let values: Vec<u8> = (0..12).map(|_| random.pick(&[0, 1, 2, 2])).collect();
            take(base.with(|place| match places.contains(&place) {
                true => values[place],
                false => made[place],
            }));
        }
    }
}

/// A symbol whose orientation modules are written anew.
struct Base {
    shape: Shape,
    modules: Vec<u8>,
    places: Vec<usize>,
}

impl Base {
    fn of(random: &mut Random, shape: Shape) -> Base {
        let (_, data) = lettered(random, shape, 5);
        let sheet = Sheet::new(shape, &data, random.below(POSITIONS));
        Base {
            shape,
            places: sheet.orientation_indexes(),
            modules: sheet.modules,
        }
    }

    fn pattern(&self) -> Vec<u8> {
        self.places
            .iter()
            .map(|&place| self.modules[place])
            .collect()
    }

    fn with(&mut self, value: impl Fn(usize) -> u8) -> Shot {
        for (i, &place) in self.places.iter().enumerate() {
            self.modules[place] = value(i);
        }
        let side = self.shape.side() as u32;
        Shot::new(
            "every pattern of orientation modules",
            side,
            self.modules.clone(),
        )
    }
}
