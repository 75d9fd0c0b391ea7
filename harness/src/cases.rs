//! The cases: calls with the answer known beforehand, where there is one.

pub mod blocks;
pub mod damage;
pub mod drawings;
pub mod edges;
pub mod grids;
pub mod kinds;
pub mod large;
pub mod named;
pub mod parts;
pub mod records;
pub mod refused;
pub mod sheet;
pub mod small;
pub mod tags;
#[cfg(stream_c)]
pub mod text;
pub mod timed;
pub mod unlawful;
pub mod walks;

use crate::field::{Field, SIZES};
use crate::random::Random;
use crate::reference::{distance, Answer, Call};

pub struct Case {
    pub label: &'static str,
    pub call: Call,
    /// The answer by construction or by hand; none leaves it to the reference.
    pub known: Option<Answer>,
}

impl Case {
    /// A case with three slices of one length.
    pub fn new(
        label: &'static str,
        bits: u32,
        k: usize,
        received: Vec<u16>,
        marks: Vec<u8>,
    ) -> Case {
        let call = Call {
            word_size: bits,
            check_words: k,
            corrected_len: received.len(),
            received,
            marks,
        };
        let known = None;
        Case { label, call, known }
    }

    pub fn knowing(self, answer: Answer) -> Case {
        let known = Some(answer);
        Case { known, ..self }
    }

    /// A valid block within the limit is the answer, since no other can be.
    pub fn made_from(self, block: &[u16]) -> Case {
        let away = distance(block, &self.call.received, &self.call.marks);
        if away <= self.call.check_words {
            self.knowing(Ok(block.to_vec()))
        } else {
            self
        }
    }
}

/// Hands every case to `take`, in an order that the seed fixes.
pub fn all(seed: u64, count: usize, take: &mut dyn FnMut(Case)) {
    named::all(take);
    small::all(take);
    unlawful::all(&mut Random::new(seed ^ 1), take);
    drawn(seed, count, take);
    parts::all(&mut Random::new(seed ^ 3), take);
    large::all(&mut Random::new(seed ^ 2), take);
}

/// Damaged blocks of every kind, by chance.
pub fn drawn(seed: u64, count: usize, take: &mut dyn FnMut(Case)) {
    let mut random = Random::new(seed);
    for i in 0..count {
        let field = Field::of(SIZES[i % SIZES.len()]).expect("a listed size");
        let kind = damage::KINDS[i / SIZES.len() % damage::KINDS.len()];
        let (n, k) = shape(&mut random, field);
        let random = &mut random;
        take(kind(&mut damage::Draw {
            random,
            field,
            n,
            k,
        }));
    }
}

/// n and K: the edges of what is lawful, the shapes of real tags, and anything small.
fn shape(random: &mut Random, field: &Field) -> (usize, usize) {
    let largest = field.order();
    // The reference costs n·K and K³; these keep a run short.
    let dear = [largest, largest, largest, 160, 60][field.bits as usize / 2 - 2];
    let some_n = random.within(2, largest.min(60));
    match random.below(10) {
        0 => (largest, random.within(1, dear.min(largest - 1))),
        1 => (some_n, some_n - 1),
        2 => (random.within(2, largest.min(400)), 1),
        3 => (some_n, random.within(1, 4.min(some_n - 1))),
        4 | 5 => tag_shape(random, field.bits),
        _ => (some_n, random.within(1, some_n - 1)),
    }
}

/// Words and check words of a tag at 5 to 40 percent ("Modules and shapes"); mode words at 4
/// bits.
fn tag_shape(random: &mut Random, bits: u32) -> (usize, usize) {
    let full = random.chance(2);
    let (first, last) = match (bits, full) {
        (4, false) => return (7, 5),
        (4, true) => return (10, 6),
        (6, _) => (1, 2),
        (8, false) => (3, 4),
        (8, true) => (3, 8),
        (10, _) => (9, 22),
        _ => (23, 32),
    };
    let layers = random.within(first, last);
    let compact = layers <= 4 && !full;
    let core = if compact { 88 } else { 112 };
    let n = (core + 16 * layers) * layers / bits as usize;
    // 23 percent is what is made; the dearest blocks stay there.
    let percent = if bits == 12 { 23 } else { random.within(5, 40) };
    (n, (percent * n).div_ceil(100) + 3)
}
