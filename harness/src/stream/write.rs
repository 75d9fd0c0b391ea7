//! "The maker's stream, byte by byte", and stuffing.

use super::codes::{first_with, Code, Set};

/// Message, word size and words: "Tags on the bench".
pub const PRINTED: [(&[u8], u32, &[u16]); 6] = [
    (b"A", 6, &[5]),
    (b"POT", 6, &[35, 2, 47]),
    (b"12", 6, &[60, 26, 31]),
    (b"aB", 6, &[56, 11, 55, 3]),
    (b"\0", 6, &[62, 2, 1, 15]),
    (b"A", 8, &[23]),
];

/// A stream as it grows, and the set it is in.
pub struct Writer {
    pub bits: Vec<bool>,
    pub set: Set,
}

impl Writer {
    /// "Start in Upper."
    pub fn new() -> Writer {
        Writer {
            bits: Vec::new(),
            set: Set::Upper,
        }
    }

    /// A number in `width` bits, higher bit first.
    pub fn number(&mut self, number: usize, width: usize) {
        let bits = (0..width).rev().map(|place| number >> place & 1 == 1);
        self.bits.extend(bits);
    }

    /// A code that the current set has.
    pub fn code(&mut self, code: Code) {
        let number = self.set.number(code).expect("the set has the code");
        self.number(number, self.set.width());
    }

    /// Goes to another set along the path that the paper names.
    pub fn latch(&mut self, to: Set) {
        for step in path(self.set, to) {
            self.code(Code::Latch(step));
            self.set = step;
        }
    }

    /// B/S with its short count, 1 to 31, and the bytes.
    fn part(&mut self, bytes: &[u8]) {
        self.code(Code::Bytes);
        self.number(bytes.len(), 5);
        for &byte in bytes {
            self.number(byte.into(), 8);
        }
    }
}

/// The sets a latch path goes through, the last one included.
fn path(from: Set, to: Set) -> Vec<Set> {
    use Set::{Digit, Lower, Mixed, Punct, Upper};
    match (from, to) {
        _ if from == to => vec![],
        // "Upper to Punct by M/L P/L"
        (Upper, Punct) => vec![Mixed, Punct],
        // "Lower to Upper by D/L U/L, to Punct by M/L P/L"
        (Lower, Upper) => vec![Digit, Upper],
        (Lower, Punct) => vec![Mixed, Punct],
        // "Mixed to Digit by U/L D/L"
        (Mixed, Digit) => vec![Upper, Digit],
        // "from Punct and Digit through Upper"
        (Punct | Digit, _) => [vec![Upper], path(Upper, to)].concat(),
        // "the rest in one step"
        _ => vec![to],
    }
}

/// The maker's stream for a message.
pub fn stream(message: &[u8]) -> Vec<bool> {
    let mut writer = Writer::new();
    let mut rest = message;
    while let Some((&byte, after)) = rest.split_first() {
        let Some(first) = first_with(byte) else {
            rest = run(&mut writer, rest);
            continue;
        };
        if !writer.set.has(byte) {
            writer.latch(first);
        }
        writer.code(Code::Byte(byte));
        rest = after;
    }
    writer.bits
}

/// "A maximal run of bytes that no set has goes out by B/S in parts of 31, the last part the
/// rest; from Punct or Digit latch to Upper first." Answers what follows the run.
fn run<'a>(writer: &mut Writer, message: &'a [u8]) -> &'a [u8] {
    let end = message.iter().position(|&byte| first_with(byte).is_some());
    let (bytes, after) = message.split_at(end.unwrap_or(message.len()));
    if matches!(writer.set, Set::Punct | Set::Digit) {
        writer.latch(Set::Upper);
    }
    for part in bytes.chunks(31) {
        writer.part(part);
    }
    after
}

/// "if the first B − 1 bits of a word are equal, the last is their opposite and takes no
/// stream bit. The last word is filled with 1s; if it would be all 1s its last bit is 0."
pub fn stuffed(bits: &[bool], size: u32) -> Vec<u16> {
    let most = size as usize - 1;
    let mut words = Vec::new();
    let mut rest = bits.iter().copied().peekable();
    while rest.peek().is_some() {
        let mut word: Vec<bool> = rest.by_ref().take(most).collect();
        word.resize(most, true);
        let equal = word.iter().all(|&bit| bit == word[0]);
        let last = if equal {
            !word[0]
        } else {
            rest.next().unwrap_or(true)
        };
        word.push(last);
        words.push(
            word.iter()
                .fold(0, |value, &bit| value << 1 | u16::from(bit)),
        );
    }
    words
}

/// Printed messages whose words come out unlike the printed ones.
pub fn faults() -> usize {
    let unlike = PRINTED.iter().filter(|(message, size, words)| {
        let made = super::words_of(message, *size);
        made != *words
    });
    unlike.count()
}
