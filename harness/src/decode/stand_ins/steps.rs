//! Readers with one step of the reading exchanged for a wrong one.

use super::{faulty, Faulty};
use crate::decode::calls::Decoded;
use crate::reader::sampled::{Sampled, DARK, UNREAD};
use crate::reader::steps::{counts, Steps, STEPS};
use crate::reader::words::{flat, Part};
use crate::reference::{distance, valid};
use crate::symbol::position::POSITIONS;
use crate::symbol::shape::Family;

pub const ALL: [Faulty; 20] = [
    ("the first position with 9", first_with_nine),
    ("the first of two best positions", first_of_the_best),
    ("eight matches taken", eight_are_enough),
    ("nine matches refused", ten_are_needed),
    ("mirrored positions unseen", mirror_unseen),
    ("three dark modules for compact", three_dark_are_enough),
    ("five dark modules for compact", five_dark_are_needed),
    ("unread modules for dark", unread_is_dark),
    ("flat check words marked", flat_checks_marked),
    ("flat mode words marked", flat_mode_words_marked),
    ("flat data words not marked", flat_data_words_trusted),
    ("D of n − 2", n_less_2_let_through),
    ("D of n − 3 refused", n_less_3_refused),
    ("the limit untested", limit_untested),
    ("the limit strict", limit_strict),
    ("data words counted alone", data_words_counted_alone),
    ("flat words counted as unread", flat_words_counted_unread),
    ("unread words counted as wrong", unread_words_counted_wrong),
    ("items before 18", items_before_18),
    ("a message of length 0 refused", nothing_refused),
];

/// A reader with one step exchanged.
macro_rules! step {
    ($name:ident, $step:ident, $wrong:expr) => {
        reader!(
            $name,
            Steps {
                $step: $wrong,
                ..STEPS
            },
            |_| {}
        );
    };
}

/// The matches of all positions.
fn matches(grid: &Sampled, family: Family) -> Vec<usize> {
    (0..POSITIONS).map(|p| grid.matches(family, p)).collect()
}

/// The family by another count of modules at distance 5, or another least one.
fn ringed(grid: &Sampled, count: usize, least: usize) -> Family {
    match grid.side {
        15 => Family::Compact,
        19 | 23 | 27 if count >= least => Family::Compact,
        _ => Family::Full,
    }
}

step!(first_with_nine, position, |grid, family| {
    matches(grid, family).iter().position(|&count| count >= 9)
});
step!(first_of_the_best, position, |grid, family| {
    let all = matches(grid, family);
    let most = *all.iter().max()?;
    all.iter().position(|&count| count == most && most >= 9)
});
step!(eight_are_enough, position, |grid, family| {
    let all = matches(grid, family);
    let most = *all.iter().max()?;
    let mut best = (0..POSITIONS).filter(|&p| all[p] == most);
    let first = best.next()?;
    (most >= 8 && best.next().is_none()).then_some(first)
});
step!(ten_are_needed, position, |grid, family| {
    let position = (STEPS.position)(grid, family)?;
    (grid.matches(family, position) >= 10).then_some(position)
});
step!(mirror_unseen, position, |grid, family| {
    let position = (STEPS.position)(grid, family)?;
    (position < 4).then_some(position)
});
step!(three_dark_are_enough, family, |grid| {
    ringed(grid, grid.at_5(DARK), 3)
});
step!(five_dark_are_needed, family, |grid| {
    ringed(grid, grid.at_5(DARK), 5)
});
step!(unread_is_dark, family, |grid| {
    ringed(grid, grid.at_5(DARK) + grid.at_5(UNREAD), 4)
});
step!(flat_checks_marked, marked, |word, part| {
    word.unread || part != Part::Mode && word.flat()
});
step!(flat_mode_words_marked, marked, |word, part| {
    word.unread || part != Part::Check && word.flat()
});
step!(flat_data_words_trusted, marked, |word, _| word.unread);
step!(n_less_2_let_through, lawful, |shape, side, data_words| {
    shape.side() == side && data_words + 2 <= shape.words()
});
step!(n_less_3_refused, lawful, |shape, side, data_words| {
    shape.side() == side && data_words + 4 <= shape.words()
});
step!(limit_untested, correct, |field, k, received, marks| {
    match valid(field, received, k) {
        true => Some(received.to_vec()),
        false => (STEPS.correct)(field, k, received, marks),
    }
});
step!(limit_strict, correct, |field, k, received, marks| {
    let found = (STEPS.correct)(field, k, received, marks)?;
    let away = distance(&found, received, marks);
    (away < k).then_some(found)
});
step!(data_words_counted_alone, counts, |words, found, data| {
    counts(&words[..data], &found[..data])
});
step!(flat_words_counted_unread, counts, |words, found, data| {
    let (unread, wrong) = counts(words, found);
    let flat = words[..data].iter().filter(|word| word.flat()).count();
    (unread + flat, wrong - flat)
});
step!(unread_words_counted_wrong, counts, |words, found, _| {
    let (unread, _) = counts(words, found);
    let unlike = words.iter().zip(found);
    let unlike = unlike.filter(|(word, found)| word.value != **found);
    (unread, unlike.count())
});
// 18 seen only where the items are lawful.
step!(items_before_18, reading, |words, size| {
    let flat = |word: &u16| flat(*word, size);
    let stuffed: Vec<u16> = words.iter().map(|w| w ^ u16::from(flat(w))).collect();
    let message = (STEPS.reading)(&stuffed, size)?;
    match words.iter().any(flat) {
        true => Err(18),
        false => Ok(message),
    }
});
// "A message of length 0 may be read."
step!(nothing_refused, reading, |words, size| {
    let message = (STEPS.reading)(words, size)?;
    (!message.is_empty()).then_some(message).ok_or(20)
});
