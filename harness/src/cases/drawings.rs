//! A fixed list of 300 messages with percentages, to be drawn for another reader.

use super::kinds::{drawn, repeated, CLASSES, KINDS};
use super::tags::{tag, Tag, PRINTED};
use crate::random::Random;
use crate::stream::LONGEST;
use crate::symbol::fit;
use crate::symbol::shape::{self, Shape};

const COUNT: usize = 300;

/// Messages of each shape.
const EACH: usize = 6;

/// Bytes that other programs are known to take amiss: 29 at the start, and `}`.
const AMISS: [&[u8]; 6] = [
    b"\x1D",
    b"\x1DPOT 0412",
    b"POT\x1D0412",
    b"{temp: 21.5}",
    b"}}}",
    b"pot } 12 ~",
];

const PERCENTS: [u32; 7] = [23, 5, 33, 50, 10, 66, 80];

/// The list never changes, so that a case can be named by its place.
const SEED: u64 = 300;

pub fn all() -> Vec<Tag> {
    let mut random = Random::new(SEED);
    let mut list = shapes(&mut random);
    let bytes = CLASSES.iter().flat_map(|class| class.iter());
    list.extend(bytes.map(|&byte| tag("a single byte", vec![byte], 23)));
    list.extend(PRINTED.map(|message| tag("a printed message", message.to_vec(), 23)));
    list.extend(AMISS.map(|message| tag("bytes often taken amiss", message.to_vec(), 23)));
    for i in 0.. {
        if list.len() == COUNT {
            break;
        }
        let len = random.within(1, 60);
        let text = drawn(&mut random, i, len);
        let percent = random.within(5, 95) as u32;
        list.push(tag(text.label, text.message, percent));
    }
    list
}

/// Every shape, first filled with upper case, which leaves no maker a choice of codes, then
/// from the other sources in turn; a full symbol and one that isn't alternate.
fn shapes(random: &mut Random) -> Vec<Tag> {
    let sources = sources(random);
    let turns = shape::listed().flat_map(|shape| (0..EACH).map(move |i| (shape, i)));
    let numbered = turns.enumerate();
    let mut list = Vec::new();
    for (turn, (shape, i)) in numbered {
        let others = sources.len() - 1;
        let (label, source) = &sources[if i == 0 { 0 } else { 1 + turn % others }];
        let percent = PERCENTS[turn % PERCENTS.len()];
        let (least, most) = lengths(source, shape, percent);
        let len = if i % 2 == 0 {
            most
        } else {
            random.within(least, most)
        };
        list.push(tag(label, source[..len].to_vec(), percent));
    }
    list
}

/// Long messages: each code set alone, bytes that no set has, and the kinds.
fn sources(random: &mut Random) -> Vec<(&'static str, Vec<u8>)> {
    let labels = [
        "upper case",
        "lower case",
        "mixed set",
        "punctuation set",
        "digits alone",
        "bytes that no set has",
    ];
    let classes = labels.into_iter().zip(CLASSES);
    let mut list: Vec<_> = classes
        .map(|(label, class)| (label, repeated(random, class, LONGEST)))
        .collect();
    for i in 0..KINDS.len() {
        let text = drawn(random, i, LONGEST);
        list.push((text.label, text.message));
    }
    list.pop();
    list
}

/// The shortest and the longest beginning that go into a shape.
fn lengths(source: &[u8], shape: Shape, percent: u32) -> (usize, usize) {
    let below = |number: usize| {
        let fits = |len: &usize| {
            let fit = fit(&source[..*len], percent);
            fit.is_ok_and(|fit| fit.shape.number() <= number)
        };
        let all: Vec<usize> = (1..=source.len()).collect();
        all.partition_point(fits)
    };
    (below(shape.number() - 1) + 1, below(shape.number()))
}
