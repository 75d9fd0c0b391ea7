//! Messages for the maker's stream.

use super::kinds::{drawn, text, Text, CLASSES, KINDS};
use crate::random::Random;
use crate::stream::write::PRINTED;
use crate::stream::LONGEST;

type Take<'a> = &'a mut dyn FnMut(Text);

/// Lengths of runs of bytes that no set has: a part is 31, a long count would reach 2,078.
const RUNS: [usize; 33] = [
    1, 2, 15, 29, 30, 31, 32, 33, 34, 60, 61, 62, 63, 64, 65, 92, 93, 94, 95, 123, 124, 125, 155,
    156, 2_046, 2_047, 2_048, 2_077, 2_078, 2_079, 2_080, 2_109, 2_110,
];

/// Hands over every message, in an order that the seed fixes.
pub fn all(seed: u64, count: usize, take: Take) {
    for (message, _, _) in PRINTED {
        take(text("a printed message", message.to_vec()));
    }
    for first in 0..=255 {
        take(text("every single byte", vec![first]));
    }
    for first in 0..=255 {
        for second in 0..=255 {
            take(text("every pair of bytes", vec![first, second]));
        }
    }
    triples(take);
    runs(take);
    let mut random = Random::new(seed);
    for i in 0..count {
        let len = length(&mut random);
        take(drawn(&mut random, i, len));
    }
    for i in 0..40 {
        let len = LONGEST - [0, 1, 2, 31, 700][i / KINDS.len() % 5];
        take(drawn(&mut random, i, len));
    }
}

/// Three classes in turn, two bytes of the middle one: every way from a set to another and on.
fn triples(take: Take) {
    for (a, b, c) in (0..216).map(|i| (i / 36, i / 6 % 6, i % 6)) {
        for turn in 0..4 {
            let byte = |class: usize, i: usize| CLASSES[class][(turn + i) % CLASSES[class].len()];
            let message = vec![byte(a, 0), byte(b, 0), byte(b, 1), byte(c, 2)];
            take(text("three code sets in turn", message));
        }
    }
}

/// Runs of each length, coming from each set and going on in each, or ending the message.
fn runs(take: Take) {
    for (i, length) in RUNS.into_iter().enumerate() {
        for (before, after) in (0..36).map(|i| (i / 6, i % 6)) {
            // Five sets and nothing; the long ones only along a diagonal.
            if length > 200 && (before + i) % 6 != after {
                continue;
            }
            let edge = |class: usize| CLASSES[class].get(i % 4..=i % 4).filter(|_| class < 5);
            let run = (0..length).map(|j| CLASSES[5][(i + j) % 8]);
            let mut message = edge(before).unwrap_or_default().to_vec();
            message.extend(run);
            message.extend(edge(after).unwrap_or_default());
            take(text("runs of bytes that no set has", message));
        }
    }
}

/// Mostly short, so that every kind of end is met at every word size.
fn length(random: &mut Random) -> usize {
    match random.below(40) {
        0 => random.within(200, 1_000),
        1..=5 => random.within(40, 200),
        _ => random.within(1, 40),
    }
}
