//! Corrected data words for the reader's stream.

use super::walks::KINDS;
use crate::random::Random;
use crate::stream::codes::{Code, Set, SETS};
use crate::stream::read::unstuffed;
use crate::stream::read::Reading;
use crate::stream::write::{stuffed, Writer};
use crate::stream::SIZES;

pub struct Block {
    pub label: &'static str,
    pub size: u32,
    pub words: Vec<u16>,
    /// The reading by hand; none leaves it to the reference.
    pub known: Option<Reading>,
}

type Take<'a> = &'a mut dyn FnMut(Block);

/// Hands over every block, in an order that the seed fixes.
pub fn all(seed: u64, count: usize, take: Take) {
    named(take);
    tails(take);
    let mut random = Random::new(seed ^ 5);
    for i in 0..count {
        let size = SIZES[i % 4];
        let (label, kind) = KINDS[i / 4 % KINDS.len()];
        let words = kind(&mut random, size);
        take(block(label, size, words));
    }
}

fn block(label: &'static str, size: u32, words: Vec<u16>) -> Block {
    let known = None;
    Block {
        label,
        size,
        words,
        known,
    }
}

/// Label, word size, words, and the reading by hand.
type Row = (
    &'static str,
    u32,
    &'static [u16],
    Result<&'static [u8], (u32, usize)>,
);

const NAMED: [Row; 17] = [
    (
        "annex G's words",
        6,
        &[9, 50, 1, 41, 47, 2, 39, 37, 1, 27],
        Ok(b"Code 2D!"),
    ),
    ("eleven 1s in Digit", 12, &[3_866, 2_047], Ok(b"12")),
    // AB D/L 12, then twelve 1s: U/S and the whole code 31.
    (
        "twelve 1s in Digit",
        12,
        &[0b0001_0000_1111, 0b1100_0110_1001, 4_094],
        Err((19, 23)),
    ),
    // M/L P/L !!, then fifteen 1s: U/L, and ten 1s remain.
    (
        "fifteen 1s in Punct",
        12,
        &[0b1110_1111_1000, 0b1100_0110_1111, 4_094],
        Ok(b"!!"),
    ),
    ("no words", 6, &[], Ok(b"")),
    ("fill alone", 6, &[62], Ok(b"")),
    ("fill alone", 12, &[4_094], Ok(b"")),
    // Ten 1s are not fewer than 6: B/S, and its count 31 has no bytes.
    ("fill twice", 6, &[62, 62], Err((20, 0))),
    // P/S and four 0s; then P/S and FLG; then M/L P/L and FLG with one bit behind it.
    ("P/S with a partial code", 10, &[1], Err((20, 0))),
    ("P/S FLG", 6, &[1, 1], Err((19, 0))),
    ("FLG without its three bits", 8, &[239, 129], Err((19, 10))),
    // P/S U/L, and P/S with the pair of code 2.
    ("P/S U/L", 12, &[0b0000_0111_1111], Err((19, 0))),
    ("P/S and a pair", 12, &[0b0000_0000_1011], Ok(b"\r\n")),
    ("a word of 0s", 6, &[5, 0], Err((18, 0))),
    ("a word of 1s", 8, &[23, 255], Err((18, 0))),
    ("18 before 19", 6, &[1, 1, 63], Err((18, 0))),
    ("18 before 20", 10, &[1, 0], Err((18, 0))),
];

fn named(take: Take) {
    for (label, size, words, reading) in NAMED {
        let known = Some(reading.map(<[u8]>::to_vec));
        let words = words.to_vec();
        take(Block {
            label,
            size,
            words,
            known,
        });
    }
    long_counts(take);
    longest(take);
}

/// The most bytes that a tag can be read to: pairs of Punct fill F32's 1,661 data words.
fn longest(take: Take) {
    let mut writer = Writer::new();
    writer.latch(Set::Punct);
    let pairs = [*b"\r\n", *b". ", *b", ", *b": "];
    let pairs = pairs.into_iter().cycle().take(7_968 / 2);
    for pair in pairs.clone() {
        writer.code(Code::Pair(pair));
    }
    let words = stuffed(&writer.bits, 12);
    assert_eq!(words.len(), 1_661, "F32's data words");
    let known = Some(Ok(pairs.flatten().collect()));
    let longest = block("the longest readable message", 12, words);
    take(Block { known, ..longest });
}

/// "0 and then 11 bits of count minus 31", 31 to 2,078, with all bytes and with one missing.
fn long_counts(take: Take) {
    for size in SIZES {
        for more in [0, 1, 2, 30, 31, 32, 1_023, 1_024, 2_046, 2_047] {
            for missing in [0, 1] {
                let mut writer = Writer::new();
                writer.code(Code::Bytes);
                writer.number(0, 5);
                writer.number(more, 11);
                let count = 31 + more - missing;
                for i in 0..count {
                    writer.number((i * 37) & 255, 8);
                }
                take(block("long counts", size, stuffed(&writer.bits, size)));
            }
        }
    }
}

/// Zero to forty 1s, or 0s, behind a character of each set, at each word size, with no fill
/// behind them: up to a dozen characters, twice, put them where they end a word. The 1s try
/// the stop, the 0s P/S and FLG with all that may be missing of them.
fn tails(take: Take) {
    let labels = [("1s at the end", true), ("0s at the end", false)];
    for (set, (label, bit)) in SETS.iter().flat_map(|&s| labels.map(|l| (s, l))) {
        for (size, count) in SIZES.iter().flat_map(|&s| (0..=40).map(move |n| (s, n))) {
            let exact = (0..144).find_map(|i| {
                let mut bits = characters(set, i / 12, 1 + i % 12);
                bits.extend(vec![bit; count]);
                let words = stuffed(&bits, size);
                (unstuffed(&words, size) == bits).then_some(words)
            });
            let words = exact.expect("some number of characters leaves no fill");
            take(block(label, size, words));
        }
    }
}

/// Codes of another width, then codes of the set, all of them characters and ending in 0.
fn characters(set: Set, before: usize, count: usize) -> Vec<bool> {
    let mut writer = Writer::new();
    let other = if set == Set::Digit {
        Set::Upper
    } else {
        Set::Digit
    };
    for (set, count) in [(other, before), (set, count)] {
        writer.latch(set);
        let number = if set == Set::Punct { 6 } else { 2 };
        for _ in 0..count {
            writer.number(number, set.width());
        }
    }
    writer.bits
}
