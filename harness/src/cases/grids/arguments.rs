//! Sides, lengths and module values: 11, 12 and 13, alone and against each other.

use super::pairs::BAD_SIDES;
use super::texts::lettered;
use super::{Shot, Take};
use crate::cases::sheet::Sheet;
use crate::random::Random;
use crate::reader::sides;
use crate::symbol::position::POSITIONS;
use crate::symbol::shape::{self, Shape};

/// Above 2: next to it, what is 0, 1 or 2 in its low bits, and the largest.
const BAD_MODULES: [u8; 8] = [3, 4, 5, 6, 128, 129, 254, 255];

pub fn all(random: &mut Random, take: Take) {
    for side in BAD_SIDES {
        bad_side(random, side, take);
    }
    for side in (0..160).filter(|side| !sides().contains(side)) {
        let modules = (0..side * side).map(|_| random.below(3) as u8).collect();
        let shot = Shot::new("a side that is no shape's", side as u32, modules);
        take(shot.refused(vec![11]));
    }
    for shape in shape::every() {
        lengths(random, shape, take);
        values(random, shape, take);
    }
}

/// With as many modules as the side asks for, one more and one less, or as others do.
fn bad_side(random: &mut Random, side: u32, take: Take) {
    let label = "a side that is no shape's";
    let whole = u64::from(side).pow(2);
    // The last is what a narrower product would take for side².
    let wrapped = side.wrapping_mul(side) as usize;
    let mut lengths = vec![0, 1, 225, 961, 151 * 151, wrapped];
    lengths.extend([wrapped + 1, wrapped.saturating_sub(1)]);
    lengths.retain(|&len| len <= 1 << 17);
    for len in lengths {
        let modules: Vec<u8> = (0..len).map(|_| random.below(3) as u8).collect();
        let mut faults = vec![11];
        if len as u64 != whole {
            faults.push(12);
        }
        let shot = |modules| Shot::new(label, side, modules);
        take(shot(modules.clone()).refused(faults.clone()));
        if len > 0 {
            let mut modules = modules;
            modules[random.below(len)] = random.pick(&BAD_MODULES);
            faults.push(13);
            take(shot(modules).refused(faults));
        }
    }
}

fn whole(random: &mut Random, shape: Shape) -> Vec<u8> {
    let (_, data) = lettered(random, shape, 5);
    let position = random.below(POSITIONS);
    Sheet::new(shape, &data, position).modules
}

/// Too few and too many modules, as many as another side asks for, and none; each also with
/// a module above 2.
fn lengths(random: &mut Random, shape: Shape, take: Take) {
    let label = "a grid length that isn't side²";
    let side = shape.side();
    let whole = whole(random, shape);
    let other = random.pick(&sides());
    let area = side * side;
    let odd = [
        area - 1,
        area + 1,
        area - side,
        area + side,
        0,
        1,
        side,
        2 * area,
        other * other,
        random.below(area),
    ];
    for len in odd {
        if len == area {
            continue;
        }
        let mut modules = whole.clone();
        modules.resize(len, 0);
        let shot = |modules| Shot::new(label, side as u32, modules);
        take(shot(modules.clone()).refused(vec![12]));
        if len > 0 {
            modules[random.below(len)] = random.pick(&BAD_MODULES);
            take(shot(modules).refused(vec![12, 13]));
        }
    }
}

/// A module above 2 in the first, the last and any place of a whole symbol.
fn values(random: &mut Random, shape: Shape, take: Take) {
    let side = shape.side();
    let whole = whole(random, shape);
    let last = whole.len() - 1;
    for value in BAD_MODULES {
        for place in [0, last, random.below(last), random.below(last)] {
            let mut modules = whole.clone();
            modules[place] = value;
            let shot = Shot::new("a module above 2", side as u32, modules);
            take(shot.refused(vec![13]));
        }
    }
}
