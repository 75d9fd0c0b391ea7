//! The table of "Five code sets, 5 bits a code, Digit 4".

use std::sync::OnceLock;

#[derive(Clone, Copy, PartialEq, Eq, Debug)]
pub enum Set {
    Upper,
    Lower,
    Mixed,
    Punct,
    Digit,
}

use Set::{Digit, Lower, Mixed, Punct, Upper};

/// "the order above": the rows of the table.
pub const SETS: [Set; 5] = [Upper, Lower, Mixed, Punct, Digit];

#[derive(Clone, Copy, PartialEq, Eq, Debug)]
pub enum Code {
    Byte(u8),
    Pair([u8; 2]),
    Latch(Set),
    Shift(Set),
    /// B/S.
    Bytes,
    Flg,
}

use Code::{Byte, Bytes, Flg, Latch, Pair, Shift};

/// The characters of the sets from code 1 on; Punct's from code 6.
const UPPER: &[u8] = b" ABCDEFGHIJKLMNOPQRSTUVWXYZ";
const LOWER: &[u8] = b" abcdefghijklmnopqrstuvwxyz";
const MIXED: &[u8] =
    b" \x01\x02\x03\x04\x05\x06\x07\x08\x09\x0A\x0B\x0C\x0D\x1B\x1C\x1D\x1E\x1F@\\^_`|~\x7F";
const PUNCT: &[u8] = b"!\"#$%&'()*+,-./:;<=>?[]{}";
const DIGIT: &[u8] = b" 0123456789,.";

impl Set {
    /// Bits of a code.
    pub fn width(self) -> usize {
        if self == Digit {
            4
        } else {
            5
        }
    }

    /// One entry of the table; `number` is below 2^width.
    pub fn code(self, number: usize) -> Code {
        match (self, number) {
            (Punct, 0) => Flg,
            (_, 0) => Shift(Punct),
            (Upper, 1..=27) => Byte(UPPER[number - 1]),
            (Upper, 28) => Latch(Lower),
            (Lower, 1..=27) => Byte(LOWER[number - 1]),
            (Lower, 28) => Shift(Upper),
            (Upper | Lower, 29) => Latch(Mixed),
            (Upper | Lower, 30) => Latch(Digit),
            (Mixed, 1..=27) => Byte(MIXED[number - 1]),
            (Mixed, 28) => Latch(Lower),
            (Mixed, 29) => Latch(Upper),
            (Mixed, 30) => Latch(Punct),
            (Upper | Lower | Mixed, 31) => Bytes,
            (Punct, 1) => Byte(b'\r'),
            (Punct, 2) => Pair(*b"\r\n"),
            (Punct, 3) => Pair(*b". "),
            (Punct, 4) => Pair(*b", "),
            (Punct, 5) => Pair(*b": "),
            (Punct, 6..=30) => Byte(PUNCT[number - 6]),
            (Punct, 31) => Latch(Upper),
            (Digit, 1..=13) => Byte(DIGIT[number - 1]),
            (Digit, 14) => Latch(Upper),
            (Digit, 15) => Shift(Upper),
            _ => panic!("{self:?} has no code {number}"),
        }
    }

    /// The number of a code in this set, if the set has it.
    pub fn number(self, code: Code) -> Option<usize> {
        match code {
            Byte(byte) => numbers()[self as usize][usize::from(byte)],
            _ => self.searched(code),
        }
    }

    fn searched(self, code: Code) -> Option<usize> {
        (0..1 << self.width()).find(|&number| self.code(number) == code)
    }

    pub fn has(self, byte: u8) -> bool {
        self.number(Byte(byte)).is_some()
    }
}

/// The numbers of all bytes in each set, searched once, for speed only.
fn numbers() -> &'static [Vec<Option<usize>>; 5] {
    static NUMBERS: OnceLock<[Vec<Option<usize>>; 5]> = OnceLock::new();
    let all = |set: Set| (0..=255).map(|byte| set.searched(Byte(byte))).collect();
    NUMBERS.get_or_init(|| SETS.map(all))
}

/// The first set in order that has a one-byte code for `byte`.
pub fn first_with(byte: u8) -> Option<Set> {
    SETS.into_iter().find(|set| set.has(byte))
}

/// Set, first and last code, and first byte, for each range that the table prints as bytes.
const PRINTED: [(Set, usize, usize, u8); 10] = [
    (Upper, 2, 27, b'A'),
    (Lower, 2, 27, b'a'),
    (Mixed, 2, 14, 1),
    (Mixed, 15, 19, 27),
    (Mixed, 27, 27, 127),
    (Punct, 1, 1, 13),
    (Punct, 6, 20, 33),
    (Punct, 21, 26, 58),
    (Punct, 30, 30, b'}'),
    (Digit, 2, 11, b'0'),
];

/// Faults of the table: a printed range that is not as printed, a code that stands twice in
/// a row, or a byte from 1 to 127 that is missing or too many.
pub fn faults() -> usize {
    let printed = PRINTED.iter().flat_map(|&(set, first, last, byte)| {
        (first..=last).map(move |number| (set, number, byte + (number - first) as u8))
    });
    let wrong = printed.filter(|&(set, number, byte)| set.code(number) != Byte(byte));
    let twice = SETS.into_iter().flat_map(|set| {
        let numbers = 0..1usize << set.width();
        numbers.filter(move |&number| set.number(set.code(number)) != Some(number))
    });
    let known = |byte: u8| matches!(byte, 1..=13 | 27..=127);
    let misplaced = (0..=255u8).filter(|&byte| first_with(byte).is_some() != known(byte));
    wrong.count() + twice.count() + misplaced.count()
}
