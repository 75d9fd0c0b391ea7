//! Arguments that break one rule or several at once, so that the order 31, 32, 33, 34 is
//! seen. The words are zeros, a valid block, wherever no fault says otherwise.

use super::Case;
use crate::random::Random;
use crate::reference::{unlawful, Call};

/// Lawful sizes and others, among them some that equal a lawful one in their low 8 or 16
/// bits.
const SIZES: [u32; 19] = [
    4,
    6,
    8,
    10,
    12,
    0,
    1,
    2,
    3,
    5,
    7,
    9,
    11,
    13,
    16,
    260,
    65_542,
    0x8000_0004,
    u32::MAX,
];

/// Lengths at and beside 2^B - 1, and one that is 7 in its low 16 bits.
const LENGTHS: [usize; 16] = [
    0, 1, 2, 7, 15, 16, 17, 63, 64, 255, 256, 1_023, 1_024, 4_095, 4_096, 65_543,
];

/// How the lengths of marks and corrected differ from that of received.
const LENGTH_FAULTS: [(isize, isize); 9] = [
    (0, 0),
    (1, 0),
    (-1, 0),
    (0, 1),
    (0, -1),
    (1, 1),
    (-1, -1),
    (1, -1),
    (1_000, 0),
];

/// Numbers of check words: lawful, on the edge, and huge (one that is 5 in its low 32 bits).
fn check_words(n: usize) -> [usize; 10] {
    let half = n.div_ceil(2);
    let low_five = (1 << 32) + 5;
    let top = usize::MAX;
    [
        0,
        1,
        half,
        n.wrapping_sub(1),
        n,
        n + 1,
        low_five,
        top,
        top / 2 + 1,
        top - n,
    ]
}

/// What makes 33 or 34 due.
const CONTENT_FAULTS: [&str; 9] = [
    "none",
    "mark 2",
    "mark 255",
    "word 2^B",
    "word 65535",
    "last mark 2",
    "last word 2^B",
    "all marked",
    "all marked, one mark 2",
];

pub fn all(random: &mut Random, take: &mut dyn FnMut(Case)) {
    // Every pair of a size and a length, with each number of check words.
    for size in SIZES {
        for n in LENGTHS {
            for k in check_words(n) {
                take(made(
                    size,
                    n,
                    k,
                    random.pick(&LENGTH_FAULTS),
                    random.pick(&CONTENT_FAULTS),
                ));
                take(made(size, n, k, (0, 0), random.pick(&CONTENT_FAULTS)));
            }
        }
    }
    // Every pair of a length fault and a content fault, the sizes and numbers at random.
    for lengths in LENGTH_FAULTS {
        for content in CONTENT_FAULTS {
            for _ in 0..20 {
                let n = random.pick(&LENGTHS);
                let k = random.pick(&check_words(n));
                take(made(random.pick(&SIZES), n, k, lengths, content));
                take(made(random.pick(&SIZES[..5]), 7, 5, lengths, content));
            }
        }
    }
}

fn made(size: u32, n: usize, k: usize, lengths: (isize, isize), content: &str) -> Case {
    let mut received = vec![0; n];
    let mut marks = vec![0u8; n];
    let too_large = if size < 16 { 1 << size } else { 65_535 };
    if content.starts_with("all marked") {
        marks.fill(1);
    }
    if n > 0 {
        let middle = n / 2;
        match content {
            "mark 2" | "all marked, one mark 2" => marks[middle] = 2,
            "mark 255" => marks[middle] = 255,
            "word 2^B" => received[middle] = too_large,
            "word 65535" => received[middle] = 65_535,
            "last mark 2" => marks[n - 1] = 2,
            "last word 2^B" => received[n - 1] = too_large,
            _ => {}
        }
    }
    marks.resize(n.saturating_add_signed(lengths.0), 0);
    let call = Call {
        word_size: size,
        check_words: k,
        corrected_len: n.saturating_add_signed(lengths.1),
        received,
        marks,
    };
    // What is left lawful is a valid block with no word or every word marked.
    let known = Some(match unlawful(&call) {
        Some(number) => Err(number),
        None if content == "all marked" => Err(34),
        None => Ok(vec![0; n]),
    });
    let label = "lawful and unlawful arguments";
    Case { label, call, known }
}
