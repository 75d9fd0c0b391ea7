//! Messages with percentages for the maker.

use super::edges;
use super::kinds::{drawn, Text};
use super::refused;
use crate::random::Random;
use crate::stream::LONGEST;

pub struct Tag {
    pub label: &'static str,
    pub message: Vec<u8>,
    pub percent: u32,
}

pub type Take<'a> = &'a mut dyn FnMut(Tag);

/// "Tags on the bench", "The print run", the README's and annex G's messages.
pub const PRINTED: [&[u8]; 8] = [
    b"A",
    b"POT",
    b"12",
    b"aB",
    b"\0",
    b"POT 0412",
    b"Code 2D!",
    b"POT 0472",
];

/// The ends of what is lawful, what is made, and a few between.
const PERCENTS: [u32; 8] = [5, 6, 10, 23, 33, 50, 94, 95];

/// Hands over every message with its percentage, in an order that the seed fixes.
pub fn all(seed: u64, count: usize, take: Take) {
    for message in PRINTED {
        for percent in 5..=95 {
            take(tag("a printed message", message.to_vec(), percent));
        }
    }
    for byte in 0..=255 {
        for percent in [5, 23, 95] {
            take(tag("every single byte", vec![byte], percent));
        }
    }
    refused::all(take);
    edges::all(take);
    drawn_tags(seed, count, take);
}

/// Messages and percentages by chance.
pub fn drawn_tags(seed: u64, count: usize, take: Take) {
    let mut random = Random::new(seed ^ 8);
    for i in 0..count {
        take(any(&mut random, i));
    }
}

pub fn tag(label: &'static str, message: Vec<u8>, percent: u32) -> Tag {
    Tag {
        label,
        message,
        percent,
    }
}

/// The kinds take turns; lengths are as often below 100 as above, so that all shapes come up.
fn any(random: &mut Random, i: usize) -> Tag {
    let most = random.pick(&[3, 10, 30, 100, 300, 1_000, 3_000, LONGEST]);
    let len = random.within(1, most);
    let Text { label, message } = drawn(random, i, len);
    let percent = match random.chance(3) {
        true => random.pick(&PERCENTS),
        false => random.within(5, 95) as u32,
    };
    tag(label, message, percent)
}
