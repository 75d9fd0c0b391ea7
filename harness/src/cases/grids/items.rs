//! Data words with items at fault: 18, 19 and 20.

use super::texts::ballast;
use crate::random::Random;
use crate::stream::codes::{Code, Set};
use crate::stream::words_of;
use crate::stream::write::{stuffed, Writer};
use crate::symbol::shape::Shape;

/// Letters, then the items at fault, then a word at fault anywhere; and the letters' number.
pub fn data(random: &mut Random, shape: Shape, faults: &[u32]) -> (usize, Vec<u16>) {
    let mut writer = Writer::new();
    let bytes = random.within(1, 4);
    for _ in 0..bytes {
        writer.code(Code::Byte(random.pick(b"ABMXYZ")));
    }
    if faults.contains(&19) {
        forbidden(random, &mut writer, faults.contains(&20));
    }
    if faults.contains(&20) {
        cut(random, &mut writer);
    }
    let size = shape.word_size();
    let mut words = stuffed(&writer.bits, size);
    if faults.contains(&18) {
        let place = random.within(0, words.len());
        words.insert(place, random.pick(&[0, (1 << size) - 1]));
    }
    let ballast = ballast(random, shape, words.len());
    let data = [words_of(&ballast, size), words].concat();
    (ballast.len() + bytes, data)
}

/// An item that is 19, from Upper; one after which the stream is in Upper where more follows.
fn forbidden(random: &mut Random, writer: &mut Writer, more: bool) {
    match random.below(if more { 2 } else { 5 }) {
        // P/S and FLG, P/S and U/L.
        0 => writer.number(0, 10),
        1 => writer.number(31, 10),
        // FLG, with all or some of its three bits.
        2 => {
            writer.latch(Set::Punct);
            let width = random.below(4);
            writer.number(0, 5 + width);
        }
        // U/S and P/S, a latch or B/S, from Lower and from Digit.
        3 => {
            writer.latch(Set::Lower);
            writer.code(Code::Shift(Set::Upper));
            writer.number(random.pick(&[0, 28, 29, 30]), 5);
            writer.number(0, 2);
        }
        _ => {
            writer.latch(Set::Digit);
            writer.code(Code::Shift(Set::Upper));
            writer.number(random.pick(&[0, 28, 29, 30]), 5);
            writer.number(0, 2);
        }
    }
}

/// B/S that counts more bytes than follow, by either count.
fn cut(random: &mut Random, writer: &mut Writer) {
    writer.number(31, 5);
    if random.chance(2) {
        writer.number(random.within(20, 31), 5);
    } else {
        writer.number(0, 5);
        writer.number(random.below(1 << 11), 11);
    }
    for _ in 0..random.below(2) {
        writer.number(random.below(256), 8);
    }
    // A 0 bit, so that the fill alone is not all that remains.
    writer.number(0, 1);
}
