//! The symbols that library and peers are timed on: a fixed list.

use super::kinds::mixed;
use super::sheet::{Damage, Sheet};
use crate::random::Random;
use crate::symbol::shape::Shape;
use crate::symbol::{fit, Fit};

pub const PERCENT: u32 = 23;

/// Wrong words of the last symbol.
const WRONG: usize = 50;

/// The list never changes, so that two runs time the same modules.
const SEED: u64 = 50;

/// Longer than any message of mixed text that goes in.
const AMPLE: usize = 5_000;

pub struct Timed {
    pub name: String,
    pub message: Vec<u8>,
    pub wrong: usize,
    pub sheet: Sheet,
}

/// One of each word size and family, from the smallest to the largest, and the largest with
/// wrong words.
pub fn all() -> Vec<Timed> {
    let mut list = vec![clean(b"POT")];
    let full = [4, 8, 16, 24, 32].map(Shape::full);
    let shapes = [Shape::compact(4)].into_iter().chain(full);
    list.extend(shapes.map(filled));
    list.push(spoilt(filled(Shape::full(32))));
    list
}

/// A shape's clean symbol, as full of mixed text as the percentage allows.
pub fn filled(shape: Shape) -> Timed {
    clean(longest(&mixed(AMPLE), PERCENT, shape.number()))
}

/// The longest beginning that a shape up to `number` takes; longer ones take no fewer words.
pub fn longest(message: &[u8], percent: u32, number: usize) -> &[u8] {
    let lengths: Vec<usize> = (1..=message.len()).collect();
    let goes_in = |&len: &usize| {
        let fit = fit(&message[..len], percent);
        fit.is_ok_and(|fit| fit.shape.number() <= number)
    };
    &message[..lengths.partition_point(goes_in)]
}

fn clean(message: &[u8]) -> Timed {
    let Fit { shape, data } = fit(message, PERCENT).expect("a message that goes in");
    Timed {
        name: shape.name(),
        message: message.to_vec(),
        wrong: 0,
        sheet: Sheet::new(shape, &data, 0),
    }
}

fn spoilt(clean: Timed) -> Timed {
    let Timed {
        name,
        message,
        mut sheet,
        ..
    } = clean;
    let damage = Damage {
        wrong: WRONG,
        ..Damage::default()
    };
    sheet.spoil_block(&mut Random::new(SEED), damage);
    Timed {
        name: format!("{name}-{WRONG}-wrong"),
        message,
        wrong: WRONG,
        sheet,
    }
}
