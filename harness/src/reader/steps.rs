//! The steps of a reading, each by its sentence in document 01.

use super::sampled::{Sampled, DARK};
use super::words::{Part, Word};
use crate::field::Field;
use crate::reference::nearest;
use crate::stream::read::reading_of;
use crate::symbol::position::POSITIONS;
use crate::symbol::shape::{Family, Shape};

/// Least matches of a position that is taken.
const LEAST_MATCHES: usize = 9;

/// "four or more dark among the 40 modules at distance 5 means compact"
const LEAST_DARK: usize = 4;

/// K is at least 3.
const LEAST_CHECKS: usize = 3;

type Correct = fn(&Field, usize, &[u16], &[u8]) -> Option<Vec<u16>>;

/// The two counts, from the words, the block found and D.
type Counts = fn(&[Word], &[u16], usize) -> (usize, usize);

#[derive(Clone, Copy)]
pub struct Steps {
    pub sampled: fn(&[u8], u32) -> Result<Sampled<'_>, u32>,
    pub family: fn(&Sampled) -> Family,
    pub position: fn(&Sampled, Family) -> Option<usize>,
    pub marked: fn(&Word, Part) -> bool,
    /// Whether L and D, as the shape that L names and D, go with a side.
    pub lawful: fn(Shape, usize, usize) -> bool,
    pub correct: Correct,
    pub reading: fn(&[u16], u32) -> Result<Vec<u8>, u32>,
    pub counts: Counts,
}

pub const STEPS: Steps = Steps {
    sampled: Sampled::new,
    family,
    position,
    marked,
    lawful,
    correct: nearest,
    reading: |words, size| reading_of(words, size).map_err(|(number, _)| number),
    counts: |words, found, _| counts(words, found),
};

/// "Side 15 is compact, above 27 full. At 19, 23 and 27: four or more dark …, else full."
fn family(grid: &Sampled) -> Family {
    let compact = match grid.side {
        15 => true,
        19 | 23 | 27 => grid.at_5(DARK) >= LEAST_DARK,
        _ => false,
    };
    if compact {
        Family::Compact
    } else {
        Family::Full
    }
}

/// "The position with most matches is taken if it has at least 9 and no other has as many."
fn position(grid: &Sampled, family: Family) -> Option<usize> {
    let matches: Vec<usize> = (0..POSITIONS).map(|p| grid.matches(family, p)).collect();
    let most = *matches.iter().max()?;
    let mut best = (0..POSITIONS).filter(|&p| matches[p] == most);
    let first = best.next()?;
    (most >= LEAST_MATCHES && best.next().is_none()).then_some(first)
}

/// "A word with an unread module is marked. A data word (never a check word, and never a mode
/// word) of all 0s or all 1s is marked too".
fn marked(word: &Word, part: Part) -> bool {
    word.unread || part == Part::Data && word.flat()
}

/// 16: "L doesn't give this side, or D above n − 3, with n the words of the shape that L
/// names".
fn lawful(shape: Shape, side: usize, data_words: usize) -> bool {
    shape.side() == side && data_words + LEAST_CHECKS <= shape.words()
}

/// "words with an unread module, and fully read words that differ from the block found"
pub fn counts(words: &[Word], found: &[u16]) -> (usize, usize) {
    let unread = words.iter().filter(|word| word.unread).count();
    let pairs = words.iter().zip(found);
    let wrong = pairs.filter(|(word, found)| !word.unread && word.value != **found);
    (unread, wrong.count())
}
