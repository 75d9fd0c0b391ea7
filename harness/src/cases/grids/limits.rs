//! Demand 3: made tags of the maker's 33 shapes, damaged exactly to the limit. The answer is
//! known from the damage itself.

use super::made::split;
use super::texts::DEAR;
use super::{answer, Shot, Take};
use crate::cases::kinds;
use crate::cases::sheet::{Damage, Sheet};
use crate::random::Random;
use crate::stream::write::stream;
use crate::stream::LONGEST;
use crate::symbol::position::{moved, POSITIONS};
use crate::symbol::shape::{self, Shape};
use crate::symbol::{fit, Fit};

pub const COUNT: usize = 2_000;

const LABEL: &str = "demand 3: a made tag at the limit";

pub fn all(seed: u64, count: usize, take: Take) {
    let mut random = Random::new(seed ^ 28);
    let shapes: Vec<Shape> = shape::listed().collect();
    for i in 0..count {
        let shape = shapes[i % shapes.len()];
        let (message, fit) = tag(&mut random, i / shapes.len(), shape);
        take(shot(&mut random, &message, fit));
    }
}

/// A message and percentage that make a tag of a shape; of kinds in turn.
fn tag(random: &mut Random, turn: usize, shape: Shape) -> (Vec<u8>, Fit) {
    loop {
        // Many check words make a large block dear.
        let most = match shape.words() > DEAR {
            true => random.pick(&[8, 12, 25]),
            false => 95,
        };
        let percent = random.within(5, most) as u32;
        let message = about(random, turn, shape, percent);
        match fit(&message, percent) {
            Ok(fit) if fit.shape == shape => return (message, fit),
            _ => continue,
        }
    }
}

/// A message with about as many bits as a shape takes and the shapes before it don't.
fn about(random: &mut Random, turn: usize, shape: Shape, percent: u32) -> Vec<u8> {
    let room = |shape: Shape| shape.most_data(percent) * shape.word_size() as usize;
    let before = shape::listed().take_while(|&other| other != shape);
    let low = before.map(room).max().unwrap_or(0);
    let bits = random.within(low, room(shape));
    // No byte takes less than 4 bits.
    let longest = (bits / 4).clamp(1, LONGEST);
    let mut message = kinds::drawn(random, turn, longest).message;
    let all = stream(&message).len();
    message.truncate((longest * bits / all).max(1));
    message
}

/// "at most one of the twelve orientation modules is wrong or unread, and both the mode
/// words and the data block are within that limit": both exactly at it, and one module of the
/// twelve spoilt, and anything elsewhere.
fn shot(random: &mut Random, message: &[u8], fit: Fit) -> Shot {
    let position = random.below(POSITIONS);
    let mut sheet = Sheet::new(fit.shape, &fit.data, position);
    let made = moved(&fit.modules(), fit.shape.side(), position);
    assert!(sheet.modules == made, "demand 2's symbol");
    // Wrong words alone reach K − 1 where K is odd.
    let wrong_only = random.chance(4);
    let mut damage = |checks: usize, most_flat: usize| match wrong_only {
        true => wrong_words(checks / 2),
        false => split(random, checks, most_flat),
    };
    let block = damage(sheet.check_words(), fit.data.len());
    let mode = damage(sheet.mode_checks(), 0);
    sheet.spoil_block(random, block);
    sheet.spoil_mode(random, mode);
    sheet.spoil_orientation(random, 1);
    if random.chance(2) {
        sheet.spoil_rest(random);
    }
    let known = answer(&sheet, message, block.unread, block.wrong + block.flat);
    Shot {
        bytes: message.len(),
        ..Shot::of(LABEL, sheet).knowing(known)
    }
}

fn wrong_words(wrong: usize) -> Damage {
    Damage {
        wrong,
        ..Damage::default()
    }
}
