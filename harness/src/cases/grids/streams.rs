//! Data words of every kind in symbols: 18, 19 and 20, the stop, and messages of length 0.

use super::texts::{ballast, most_data};
use super::{answer, Shot, Take};
use crate::cases::blocks::{self, Block};
use crate::cases::sheet::Sheet;
use crate::random::Random;
use crate::stream::words_of;
use crate::symbol::position::POSITIONS;
use crate::symbol::shape::{self, Shape};

/// Each block that the stream is tried with, in a shape of its word size.
pub fn all(seed: u64, count: usize, take: Take) {
    let mut random = Random::new(seed ^ 26);
    blocks::all(seed, count, &mut |block| {
        let position = random.below(POSITIONS);
        if let Some(shape) = roomy(&mut random, &block) {
            let ballast = ballast(&mut random, shape, block.words.len());
            take(shot(&block, shape, position, ballast));
        }
    });
}

/// A shape of that word size that takes so many data words and some letters.
fn roomy(random: &mut Random, block: &Block) -> Option<Shape> {
    let fits = |shape: &Shape| {
        let data_words = 1..=most_data(*shape);
        shape.word_size() == block.size && data_words.contains(&block.words.len())
    };
    let all: Vec<Shape> = shape::every().filter(fits).collect();
    (!all.is_empty()).then(|| random.pick(&all))
}

fn shot(block: &Block, shape: Shape, position: usize, ballast: Vec<u8>) -> Shot {
    let mut words = words_of(&ballast, block.size);
    words.extend(&block.words);
    let sheet = Sheet::new(shape, &words, position);
    let known = block.known.as_ref().map(|reading| match reading {
        Ok(message) => answer(&sheet, &[ballast, message.clone()].concat(), 0, 0),
        Err((number, _)) => Err(*number),
    });
    Shot {
        known,
        ..Shot::of(block.label, sheet)
    }
}
