//! Messages and their data words for a shape.

use crate::cases::kinds;
use crate::random::Random;
use crate::stream::words_of;
use crate::symbol::mode_sizes;
use crate::symbol::shape::Shape;
use std::cmp::Ordering;

/// Words of a block from which its correction by elimination is dear.
pub const DEAR: usize = 400;

/// The most data words that mode words can say, 64 or 2,048.
pub fn sayable(shape: Shape) -> usize {
    1 << mode_sizes(shape.family).0
}

/// The most data words that a shape's mode words and check words allow.
pub fn most_data(shape: Shape) -> usize {
    sayable(shape).min(shape.words() - 3)
}

/// D of a symbol to be damaged: the edges, and anything between; few check words for the
/// large shapes, but for one in sixty.
pub fn some_data(random: &mut Random, shape: Shape) -> usize {
    let most = most_data(shape);
    let few_checks = random.within(3, 100);
    let few_checks = shape.words().saturating_sub(few_checks).clamp(1, most);
    let any = random.within(1, most);
    if shape.words() > DEAR && !random.chance(60) {
        return random.pick(&[few_checks, few_checks, most, most - 1]);
    }
    random.pick(&[any, any, any, few_checks, most, 1])
}

/// Letters that fill whole words without a stuffed bit and leave the stream in Upper: their
/// codes have no more than three equal bits in a row, and B of them are five words. With them
/// in front, a few data words leave a large shape few check words, and are corrected sooner.
pub fn ballast(random: &mut Random, shape: Shape, data_words: usize) -> Vec<u8> {
    let size = shape.word_size() as usize;
    let spare = match shape.words() > DEAR && !random.chance(8) {
        true => most_data(shape).saturating_sub(data_words + random.below(60)),
        false => 0,
    };
    (0..spare / 5 * size).map(|_| random.pick(b"KLU")).collect()
}

/// A message of the kind of turn `turn` whose words in a shape are D or fewer, and those words.
pub fn drawn(
    random: &mut Random,
    turn: usize,
    shape: Shape,
    data_words: usize,
) -> (Vec<u8>, Vec<u16>) {
    let bits = data_words * shape.word_size() as usize;
    let len = random.within(1, 1 + bits / 5);
    let mut message = kinds::drawn(random, turn, len).message;
    loop {
        let words = words_of(&message, shape.word_size());
        match message.len() {
            _ if words.len() <= data_words => return (message, words),
            1 => message = b"K".to_vec(),
            // As much shorter as there are words too many.
            len => message.truncate((len * data_words / words.len()).clamp(1, len - 1)),
        }
    }
}

/// Letters that fill exactly D words, and those words.
pub fn lettered(random: &mut Random, shape: Shape, data_words: usize) -> (Vec<u8>, Vec<u16>) {
    let size = shape.word_size();
    let letter = |random: &mut Random| random.pick(b"ABCDEFGHIJKLMNOPQRSTUVWXYZ ");
    let len = 1 + (data_words - 1) * size as usize / 5;
    let mut message: Vec<u8> = (0..len).map(|_| letter(random)).collect();
    // Stuffed bits make it longer than letters alone; one letter is less than a word.
    loop {
        let words = words_of(&message, size);
        match words.len().cmp(&data_words) {
            Ordering::Greater => drop(message.pop()),
            Ordering::Less => message.push(letter(random)),
            Ordering::Equal => return (message, words),
        }
    }
}
