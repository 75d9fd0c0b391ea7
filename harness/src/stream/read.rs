//! "Drop the stuffed bits and read items."

use super::codes::{Code, Set};

/// The message, or 18, 19, 20 and the bit place at which the item at fault starts, counted
/// after the stuffed bits are dropped (18: place 0).
pub type Reading = Result<Vec<u8>, (u32, usize)>;

/// What corrected data words read to. 18 comes first, whatever the items are: "Lower numbers
/// come first when several apply".
pub fn reading_of(words: &[u16], size: u32) -> Reading {
    let all_ones = (1u32 << size) - 1;
    if words.iter().any(|&w| w == 0 || u32::from(w) == all_ones) {
        return Err((18, 0));
    }
    message(&unstuffed(words, size), size)
}

/// The bits of words that are neither all 0s nor all 1s: where the first B − 1 are equal,
/// the last is dropped.
pub fn unstuffed(words: &[u16], size: u32) -> Vec<bool> {
    let mut bits = Vec::new();
    for word in words {
        let word: Vec<bool> = (0..size)
            .rev()
            .map(|place| word >> place & 1 == 1)
            .collect();
        let (last, most) = word.split_last().expect("a word has bits");
        bits.extend(most);
        if most.iter().any(|&bit| bit != most[0]) {
            bits.push(*last);
        }
    }
    bits
}

enum Item {
    Bytes(Vec<u8>),
    Latch(Set),
}

/// Bits with the place of the next one.
struct Cursor<'a> {
    bits: &'a [bool],
    place: usize,
}

impl Cursor<'_> {
    /// A number of `width` bits; 20 where they aren't all there.
    fn number(&mut self, width: usize) -> Result<usize, u32> {
        let bits = self.bits.get(self.place..self.place + width).ok_or(20u32)?;
        self.place += width;
        Ok(bits.iter().fold(0, |n, &bit| n << 1 | usize::from(bit)))
    }

    fn code(&mut self, set: Set) -> Result<Code, u32> {
        Ok(set.code(self.number(set.width())?))
    }

    /// "An item is a character or pair, a latch, a shift with its character or pair, or B/S
    /// with count and bytes. It must be complete."
    fn item(&mut self, set: Set) -> Result<Item, u32> {
        match self.code(set)? {
            Code::Byte(byte) => Ok(Item::Bytes(vec![byte])),
            Code::Pair(pair) => Ok(Item::Bytes(pair.to_vec())),
            Code::Latch(to) => Ok(Item::Latch(to)),
            // 19: "FLG, whatever follows it"
            Code::Flg => Err(19),
            Code::Shift(to) => match self.code(to)? {
                Code::Byte(byte) => Ok(Item::Bytes(vec![byte])),
                Code::Pair(pair) => Ok(Item::Bytes(pair.to_vec())),
                // 19: "a shift followed by a whole code that is no character or pair"
                _ => Err(19),
            },
            Code::Bytes => {
                // "5 bits of count 1 to 31, or 0 and then 11 bits of count minus 31"
                let count = match self.number(5)? {
                    0 => self.number(11)? + 31,
                    count => count,
                };
                let bytes = (0..count).map(|_| Ok(self.number(8)? as u8));
                Ok(Item::Bytes(bytes.collect::<Result<_, u32>>()?))
            }
        }
    }

    /// "if all remaining bits are 1s and fewer than B, stop"; no bits at all are such bits.
    fn at_end(&self, size: u32) -> bool {
        let rest = &self.bits[self.place..];
        rest.len() < size as usize && rest.iter().all(|&bit| bit)
    }
}

/// Reads items to the stop; the first item at fault gives the number and its own place.
fn message(bits: &[bool], size: u32) -> Reading {
    let mut cursor = Cursor { bits, place: 0 };
    let mut set = Set::Upper;
    let mut message = Vec::new();
    while !cursor.at_end(size) {
        let start = cursor.place;
        match cursor.item(set).map_err(|number| (number, start))? {
            Item::Bytes(bytes) => message.extend(bytes),
            Item::Latch(to) => set = to,
        }
    }
    Ok(message)
}
