//! Modules spoilt word by word.

use super::Sheet;
use crate::random::Random;
use crate::reader::sampled::UNREAD;
use crate::reader::words::flat;

/// How many words of a block are spoilt, and how. A flat word is a data word turned into all
/// 0s or all 1s: fully read, and marked all the same.
#[derive(Clone, Copy, Default, Debug)]
pub struct Damage {
    pub wrong: usize,
    pub unread: usize,
    pub flat: usize,
}

impl Sheet {
    /// Spoils so many words of the data block, each at another place.
    pub fn spoil_block(&mut self, random: &mut Random, damage: Damage) {
        let words = self.word_indexes();
        // Flat words have to be data words; the others may be any.
        let flats = random.places(self.data_words, damage.flat);
        let others: Vec<usize> = (0..words.len()).filter(|i| !flats.contains(i)).collect();
        let others = random.shuffled(&others);
        let size = self.shape.word_size();
        for place in flats {
            let ones = (1 << size) - 1;
            // A made word may be flat itself, and shall be another then.
            let value = match self.block[place] {
                0 => ones,
                made if made == ones => 0,
                _ => random.pick(&[0, ones]),
            };
            self.write(&words[place], value);
        }
        let (wrong, unread) = (damage.wrong, damage.unread);
        for &place in &others[..wrong] {
            let data = place < self.data_words;
            let made = self.block[place];
            let value = unlike(random, made, size, data);
            self.write(&words[place], value);
        }
        for &place in &others[wrong..wrong + unread] {
            self.blind(random, &words[place]);
        }
    }

    /// Spoils so many mode words, none of them flat on purpose.
    pub fn spoil_mode(&mut self, random: &mut Random, damage: Damage) {
        let indexes = self.mode_indexes();
        let words: Vec<&[usize]> = indexes.chunks(4).collect();
        let places = random.places(words.len(), damage.wrong + damage.unread);
        for &place in &places[..damage.wrong] {
            let value = unlike(random, self.mode[place], 4, false);
            self.write(words[place], value);
        }
        for &place in &places[damage.wrong..] {
            self.blind(random, words[place]);
        }
    }

    /// Makes so many of the twelve orientation modules wrong or unread.
    pub fn spoil_orientation(&mut self, random: &mut Random, count: usize) {
        let indexes = self.orientation_indexes();
        for place in random.places(12, count) {
            let module = &mut self.modules[indexes[place]];
            *module = random.pick(&[1 - *module, 1 - *module, UNREAD]);
        }
    }

    /// Gives any values to modules that nothing depends on: the target, the reference grid
    /// and the skipped bits. At most three modules of the ring that decides the family of a
    /// small full grid become dark.
    pub fn spoil_rest(&mut self, random: &mut Random) {
        let mut used = self.orientation_indexes();
        used.extend(self.mode_indexes());
        used.extend(self.word_indexes().concat());
        let ring = match self.shape.side() {
            19 | 23 | 27 => self.ring_indexes(),
            _ => Vec::new(),
        };
        let mut fixed = vec![false; self.modules.len()];
        for &index in used.iter().chain(&ring) {
            fixed[index] = true;
        }
        for (module, fixed) in self.modules.iter_mut().zip(fixed) {
            if !fixed {
                *module = random.below(3) as u8;
            }
        }
        // The ring of a compact symbol is its core ring.
        if self.shape.either(false, !ring.is_empty()) {
            let dark = random.within(0, 3);
            self.darken(random, dark);
        }
    }

    /// Makes so many modules of the ring at distance 5 dark and the others light or unread.
    pub fn darken(&mut self, random: &mut Random, dark: usize) {
        let ring = self.ring_indexes();
        let order = random.places(ring.len(), ring.len());
        for (i, place) in order.into_iter().enumerate() {
            self.modules[ring[place]] = match i < dark {
                true => 1,
                false => random.pick(&[0, 0, UNREAD]),
            };
        }
    }

    /// Writes a value on a word's modules, higher bit first.
    fn write(&mut self, indexes: &[usize], value: u16) {
        let places = (0..indexes.len()).rev();
        for (&index, place) in indexes.iter().zip(places) {
            self.modules[index] = (value >> place & 1) as u8;
        }
    }

    /// Makes one module of a word unread, or some, or all; the others stay or become anything.
    fn blind(&mut self, random: &mut Random, indexes: &[usize]) {
        let some = random.within(1, indexes.len());
        let count = random.pick(&[1, some, indexes.len()]);
        if random.chance(3) {
            for &index in indexes {
                self.modules[index] = random.below(2) as u8;
            }
        }
        for place in random.places(indexes.len(), count) {
            self.modules[indexes[place]] = UNREAD;
        }
    }
}

/// A value other than the made one: one bit off, or any, or flat where that isn't marked.
fn unlike(random: &mut Random, made: u16, size: u32, data: bool) -> u16 {
    loop {
        let value = match random.below(4) {
            0 => random.pick(&[0, (1 << size) - 1]),
            1 => random.below(1 << size) as u16,
            _ => made ^ 1 << random.below(size as usize),
        };
        if value != made && !(data && flat(value, size)) {
            return value;
        }
    }
}
