//! Both sides of each boundary between two shapes: the beginning of a long message that a
//! shape just takes, and the same with one byte more, which goes to a later shape or to none.

use super::kinds::{drawn, repeated, KINDS};
use super::tags::{tag, Take};
use crate::random::Random;
use crate::stream::write::{stream, stuffed};
use crate::stream::SIZES;
use crate::symbol::shape::{self, Shape};
use std::collections::HashMap;

/// No shape takes as many bytes: 4 bits each are more than F32 has.
const TOO_MANY: usize = 5_000;

const PERCENTS: [u32; 12] = [5, 6, 9, 10, 23, 33, 50, 66, 77, 90, 94, 95];

/// The same every time, so that the edges don't go with the seed.
const SEED: u64 = 36;

const LABEL: &str = "the edge of a shape";

pub fn all(take: Take) {
    for message in sources() {
        let mut source = Source::new(message);
        for percent in PERCENTS {
            for len in source.edges(percent) {
                take(tag(LABEL, source.message[..len].to_vec(), percent));
            }
        }
    }
}

/// Digits, letters, bytes that no set has, then all the kinds.
fn sources() -> Vec<Vec<u8>> {
    let mut random = Random::new(SEED);
    let bytes: Vec<u8> = (128..=255).collect();
    let mut list = vec![
        repeated(&mut random, b"0123456789", TOO_MANY),
        repeated(&mut random, b"ABCDEFGHIJKLMNOPQRSTUVWXYZ", TOO_MANY),
        repeated(&mut random, &bytes, TOO_MANY),
        vec![0; TOO_MANY],
        vec![255; TOO_MANY],
    ];
    list.extend((0..KINDS.len()).map(|i| drawn(&mut random, i, TOO_MANY).message));
    list
}

/// A long message, and the data words that its beginnings take at each word size, as far as
/// they were asked for.
struct Source {
    message: Vec<u8>,
    words: HashMap<usize, [usize; 4]>,
}

impl Source {
    fn new(message: Vec<u8>) -> Source {
        let words = HashMap::new();
        Source { message, words }
    }

    /// D of the first `len` bytes in a shape.
    fn data(&mut self, len: usize, shape: Shape) -> usize {
        let start = &self.message[..len];
        let words = self.words.entry(len).or_insert_with(|| {
            let bits = stream(start);
            SIZES.map(|size| stuffed(&bits, size).len())
        });
        words[shape.word_size() as usize / 2 - 3]
    }

    /// Whether the first `len` bytes go into `last` or a shape listed before it.
    fn fits(&mut self, len: usize, last: Shape, percent: u32) -> bool {
        let mut shapes = shape::listed().filter(|shape| shape.number() <= last.number());
        shapes.any(|shape| self.data(len, shape) <= shape.most_data(percent))
    }

    /// A length that goes into `last` or before while one byte more doesn't; 0 where not
    /// even one byte does.
    fn edge(&mut self, last: Shape, percent: u32) -> usize {
        let (mut low, mut high) = (0, self.message.len());
        while high - low > 1 {
            let middle = (low + high) / 2;
            if self.fits(middle, last, percent) {
                low = middle;
            } else {
                high = middle;
            }
        }
        low
    }

    /// The lengths on both sides of every boundary.
    fn edges(&mut self, percent: u32) -> Vec<usize> {
        let lasts = shape::listed().map(|last| self.edge(last, percent));
        let mut all: Vec<usize> = lasts.flat_map(|len| [len, len + 1]).collect();
        all.retain(|&len| len > 0);
        all.sort_unstable();
        all.dedup();
        all
    }
}

/// Digits take a third of a word or more each, so the longest ones fill a shape to its last
/// data word; and 4,729 are the most that go into any.
pub fn faults() -> Vec<String> {
    let mut digits = Source::new(sources().swap_remove(0));
    let mut list = Vec::new();
    for percent in PERCENTS {
        for shape in shape::listed() {
            let most = shape.most_data(percent);
            let len = digits.edge(shape, percent);
            // The least is the latch and one digit, 9 bits.
            if most > 1 && digits.data(len, shape) != most {
                list.push(format!("the edge of {} at {percent} percent", shape.name()));
            }
        }
    }
    if digits.edge(Shape::full(32), 5) != 4_729 {
        list.push("the longest digits that are ever made".into());
    }
    list
}
