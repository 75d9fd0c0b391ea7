//! Random words for the reader's stream, and streams of random codes.

use crate::random::Random;
use crate::stream::codes::Code;
use crate::stream::write::{stuffed, Writer};

/// A label, and what draws words of a size.
pub type Kind = (&'static str, fn(&mut Random, u32) -> Vec<u16>);

pub const KINDS: [Kind; 10] = [
    ("random words", |random, size| {
        let count = random.within(1, 24);
        random.words(size, count)
    }),
    ("random words, none of them 18", |random, size| {
        let count = random.within(1, 24);
        let words = random.words(size, count).into_iter();
        words.map(|word| lawful(word, size)).collect()
    }),
    ("words near all 0s and all 1s", |random, size| {
        (0..random.within(1, 12))
            .map(|_| near_edge(random, size))
            .collect()
    }),
    ("words near the edges, none of them 18", |random, size| {
        (0..random.within(1, 12))
            .map(|_| lawful(near_edge(random, size), size))
            .collect()
    }),
    ("codes without a fault", |random, size| {
        stuffed(&walk(random, 1_000_000).bits, size)
    }),
    ("codes with a fault now and then", |random, size| {
        stuffed(&walk(random, 12).bits, size)
    }),
    ("codes and 1s", |random, size| {
        let mut bits = walk(random, 60).bits;
        bits.extend(vec![true; random.below(26)]);
        stuffed(&bits, size)
    }),
    ("codes cut at a bit", |random, size| {
        let mut bits = walk(random, 200).bits;
        bits.truncate(random.within(1, bits.len()));
        stuffed(&bits, size)
    }),
    ("codes cut at a word", |random, size| {
        let mut words = stuffed(&walk(random, 200).bits, size);
        words.truncate(random.within(1, words.len()));
        words
    }),
    ("codes with a word exchanged", |random, size| {
        let mut words = stuffed(&walk(random, 60).bits, size);
        let place = random.below(words.len());
        words[place] = near_edge(random, size);
        words
    }),
];

/// All 0s, all 1s, or one bit unlike the others.
fn near_edge(random: &mut Random, size: u32) -> u16 {
    let word = random.pick(&[0, (1 << size) - 1]);
    match random.below(8) {
        0 => word,
        // The last bit: a stuffed word.
        1..=3 => word ^ 1,
        _ => word ^ 1 << random.below(size as usize),
    }
}

/// The word, or a stuffed one for all 0s and all 1s.
fn lawful(word: u16, size: u32) -> u16 {
    if word == 0 || word == (1 << size) - 1 {
        word ^ 1
    } else {
        word
    }
}

/// One to thirty codes, each drawn from the set that the stream is then in. FLG and a shift
/// to no character are let through one time in `fault`.
fn walk(random: &mut Random, fault: usize) -> Writer {
    let mut writer = Writer::new();
    for _ in 0..random.within(1, 30) {
        step(random, &mut writer, fault);
    }
    if writer.bits.is_empty() {
        writer.code(Code::Byte(b'A'));
    }
    writer
}

fn step(random: &mut Random, writer: &mut Writer, fault: usize) {
    let set = writer.set;
    let mut number = random.below(1 << set.width());
    // Codes that do something, more often than their number.
    if random.chance(3) {
        number = random.pick(&[0, number, (1 << set.width()) - 1 - number % 4]);
    }
    match set.code(number) {
        Code::Flg if !random.chance(fault) => return,
        Code::Shift(to) => {
            let next = random.below(1 << to.width());
            let character = matches!(to.code(next), Code::Byte(_) | Code::Pair(_));
            if !character && !random.chance(fault) {
                return;
            }
            writer.number(number, set.width());
            return writer.number(next, to.width());
        }
        Code::Latch(to) => writer.set = to,
        _ => (),
    }
    writer.number(number, set.width());
    if set.code(number) == Code::Bytes {
        bytes(random, writer);
    }
}

/// Count and bytes behind B/S, in the long form one time in six.
fn bytes(random: &mut Random, writer: &mut Writer) {
    let mut count = random.pick(&[1, 2, 3, 15, 16, 30, 31]);
    if random.chance(6) {
        let more = random.pick(&[0, 1, 2, 5, 31, 32, 77]);
        count = 31 + more;
        writer.number(0, 5);
        writer.number(more, 11);
    } else {
        writer.number(count, 5);
    }
    for _ in 0..count {
        let byte = random.next() as usize & 255;
        writer.number(random.pick(&[byte, byte, 0, 255]), 8);
    }
}
