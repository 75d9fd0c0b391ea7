//! The reader of document 01, "How a grid is read", written from its words alone.
//!
//! The corrector is `reference`'s, the items are `stream::read`'s; places are found by
//! geometry, module by module.

pub mod faults;
pub mod sampled;
pub mod steps;
pub mod words;

use self::sampled::Sampled;
use self::steps::{Steps, STEPS};
use self::words::{values, Part, Word};
use crate::field::Field;
use crate::symbol::shape::{self, Family, Shape};
use crate::symbol::{core, mode_sizes, places};

/// "The reader's answer gives length, shape, position, and two counts over the data block".
#[derive(Clone, PartialEq, Eq, Debug)]
pub struct Read {
    pub message: Vec<u8>,
    pub shape: Shape,
    pub position: usize,
    /// "words with an unread module"
    pub unread: usize,
    /// "fully read words that differ from the block found"
    pub wrong: usize,
}

/// What a grid reads to, or the number of the refusal that no message buffer changes: 11 to
/// 20.
pub type Reading = Result<Read, u32>;

pub fn read(modules: &[u8], side: u32) -> Reading {
    read_by(&STEPS, modules, side)
}

/// The reading with the steps given: a test exchanges one of them for a wrong one.
pub fn read_by(steps: &Steps, modules: &[u8], side: u32) -> Reading {
    let grid = (steps.sampled)(modules, side)?;
    let family = (steps.family)(&grid);
    let position = (steps.position)(&grid, family).ok_or(14u32)?;
    let (layers, data_words) = mode(steps, &grid, family, position).ok_or(15u32)?;
    let shape = Shape { family, layers };
    if !(steps.lawful)(shape, grid.side, data_words) {
        return Err(16);
    }
    let received = block_words(&grid, shape, position);
    let found = corrected(steps, shape, data_words, &received).ok_or(17u32)?;
    let message = (steps.reading)(&found[..data_words], shape.word_size())?;
    let (unread, wrong) = (steps.counts)(&received, &found, data_words);
    Ok(Read {
        message,
        shape,
        position,
        unread,
        wrong,
    })
}

/// L and D, if the mode words can be corrected.
fn mode(steps: &Steps, grid: &Sampled, family: Family, position: usize) -> Option<(usize, usize)> {
    let received = words::of(grid, &core::mode(family), position, 4);
    let (length_bits, data_words, check_words) = mode_sizes(family);
    let marked = |word: &Word| u8::from((steps.marked)(word, Part::Mode));
    let marks: Vec<u8> = received.iter().map(marked).collect();
    let field = Field::of(4).expect("a listed size");
    let found = (steps.correct)(field, check_words, &values(&received), &marks)?;
    let data = found[..data_words].iter();
    let bits = data.fold(0, |bits, &word| bits << 4 | usize::from(word));
    Some(((bits >> length_bits) + 1, bits % (1 << length_bits) + 1))
}

/// "The first Cb mod B bits are … skipped in reading; then data words, then check words".
pub fn block_words(grid: &Sampled, shape: Shape, position: usize) -> Vec<Word> {
    let size = shape.word_size();
    let skipped = shape.bits() % size as usize;
    words::of(grid, &places::offsets(shape)[skipped..], position, size)
}

/// The marks of a data block with D data words.
pub fn block_marks(steps: &Steps, received: &[Word], data_words: usize) -> Vec<u8> {
    let part = |i: usize| match i < data_words {
        true => Part::Data,
        false => Part::Check,
    };
    let words = received.iter().enumerate();
    words
        .map(|(i, word)| u8::from((steps.marked)(word, part(i))))
        .collect()
}

fn corrected(
    steps: &Steps,
    shape: Shape,
    data_words: usize,
    received: &[Word],
) -> Option<Vec<u16>> {
    let field = Field::of(shape.word_size()).expect("a listed size");
    let marks = block_marks(steps, received, data_words);
    let check_words = shape.words() - data_words;
    (steps.correct)(field, check_words, &values(received), &marks)
}

/// The sides of the 36 shapes, each once.
pub fn sides() -> Vec<usize> {
    let mut all: Vec<usize> = shape::every().map(Shape::side).collect();
    all.sort_unstable();
    all.dedup();
    all
}
