//! Every number from 11 to 20, and every two of them, put into one grid: "Lower numbers come
//! first when several apply". Buffers with too little room add 21 to each.

use super::texts::sayable;
use super::{items, Shot, Take};
use crate::cases::sheet::{Damage, Sheet};
use crate::random::Random;
use crate::reader::sampled::UNREAD;
use crate::symbol::position::POSITIONS;
use crate::symbol::shape::{self, Shape};

/// Sides that are no shape's: even ones, odd ones between the shapes, next to the smallest
/// and the largest, and what a narrower integer would take for a lawful one.
pub const BAD_SIDES: [u32; 30] = [
    0,
    1,
    2,
    3,
    7,
    11,
    13,
    14,
    16,
    17,
    18,
    20,
    21,
    25,
    29,
    30,
    32,
    33,
    35,
    65,
    99,
    149,
    150,
    152,
    153,
    155,
    256 + 15,
    65_536,
    65_536 + 31,
    u32::MAX,
];

const REFUSALS: std::ops::RangeInclusive<u32> = 11..=20;

pub fn all(random: &mut Random, take: Take) {
    for shape in shape::every() {
        for first in REFUSALS {
            take(shot(random, shape, vec![first]));
            for second in first + 1..=*REFUSALS.end() {
                take(shot(random, shape, vec![first, second]));
            }
        }
        for _ in 0..10 {
            let faults = REFUSALS.filter(|_| random.chance(3)).collect();
            take(shot(random, shape, faults));
        }
    }
}

/// A symbol into which the causes of these numbers are put, the last first.
fn shot(random: &mut Random, shape: Shape, faults: Vec<u32>) -> Shot {
    let has = |number: u32| faults.contains(&number);
    let (bytes, data) = items::data(random, shape, &faults);
    let said = match has(16) {
        true => unlawful(random, shape),
        false => (shape.layers, data.len()),
    };
    let position = random.below(POSITIONS);
    let mut sheet = Sheet::saying(shape, &data, position, said);
    if has(17) {
        // More than K marked words are beyond every block.
        let unread = sheet.check_words() + 1;
        sheet.spoil_block(random, unread_only(unread));
    }
    if has(15) {
        let unread = sheet.mode_checks() + 1;
        sheet.spoil_mode(random, unread_only(unread));
    }
    if has(14) {
        blur(random, &mut sheet);
    }
    // With 14 or 15 in it, the core ring of a small compact symbol may be dark no longer.
    let ring = sheet.ring_indexes().into_iter();
    let dark = ring.filter(|&index| sheet.modules[index] == 1).count();
    let doubtful = matches!(shape.side(), 19 | 23 | 27) && shape.either(dark < 4, false);
    let mut shot = Shot {
        bytes,
        ..Shot::of("numbers against each other", sheet)
    };
    arguments(random, &mut shot, &faults);
    match doubtful && !(11..=13).any(has) || faults.is_empty() {
        true => shot,
        false => shot.refused(faults),
    }
}

fn unread_only(unread: usize) -> Damage {
    Damage {
        unread,
        ..Damage::default()
    }
}

/// Four to twelve orientation modules unread: at most eight match.
fn blur(random: &mut Random, sheet: &mut Sheet) {
    let indexes = sheet.orientation_indexes();
    let count = random.within(4, 12);
    for place in random.places(12, count) {
        sheet.modules[indexes[place]] = UNREAD;
    }
}

/// 13, 12 and 11.
fn arguments(random: &mut Random, shot: &mut Shot, faults: &[u32]) {
    let has = |number: u32| faults.contains(&number);
    if has(11) {
        // Without 12, as many modules as the side asks for.
        let most = if has(12) { BAD_SIDES.len() } else { 26 };
        shot.side = BAD_SIDES[random.within(usize::from(!has(12)) * 2, most - 1)];
        if !has(12) {
            let area = shot.side as usize * shot.side as usize;
            shot.modules.resize(area, 0);
        }
    }
    if has(12) {
        let area = u64::from(shot.side).pow(2);
        let len = shot.modules.len();
        let odd = [len - 1, len + 1, 1, 2 * len, len - random.within(1, 9)];
        let mut len = random.pick(&odd);
        if len as u64 == area {
            len += 1;
        }
        shot.modules.resize(len, 0);
    }
    if has(13) {
        let place = random.below(shot.modules.len());
        shot.modules[place] = random.within(3, 255) as u8;
    }
}

/// L and D that are refused with 16.
fn unlawful(random: &mut Random, shape: Shape) -> (usize, usize) {
    let n = shape.words();
    let most = sayable(shape);
    let other = 1 + (shape.layers + random.below(shape.either(3, 31))) % shape.either(4, 32);
    let any = random.within(1, most);
    if n - 2 > most || random.chance(2) {
        return (other, any);
    }
    let above = random.within(n - 2, most);
    (shape.layers, random.pick(&[n - 2, n - 1, above, most]))
}
