//! Made blocks with damage of every kind, and words that were never a block.

use super::Case;
use crate::field::Field;
use crate::random::Random;
use crate::reference::{filled, syndromes, Maker};

/// What a case is drawn from: a field, n words, K of them check words, and chance.
pub struct Draw<'a> {
    pub random: &'a mut Random,
    pub field: &'static Field,
    pub n: usize,
    pub k: usize,
}

/// Gone through in turn, for every word size; the edges of the limit more than once.
pub const KINDS: [fn(&mut Draw) -> Case; 19] = [
    clean,
    wrong_only,
    mixed,
    at_limit,
    at_limit,
    at_limit,
    one_beyond,
    one_beyond,
    one_beyond,
    far_beyond,
    nearly_all_checks_marked,
    all_checks_marked,
    over_marked,
    garbage,
    zeros,
    burst,
    between_two,
    between_two,
    outside_the_block,
];

impl Draw<'_> {
    /// A valid block with any data words.
    pub fn block(&mut self) -> Vec<u16> {
        let data = self.random.words(self.field.bits, self.n - self.k);
        Maker::new(self.field, self.k).block(&data)
    }

    fn case(&self, label: &'static str, received: Vec<u16>, marks: Vec<u8>) -> Case {
        Case::new(label, self.field.bits, self.k, received, marks)
    }

    /// A made block with that many wrong and marked words.
    pub fn made(&mut self, label: &'static str, wrong: usize, marked: usize) -> Case {
        let block = self.block();
        let (received, marks) = self.damaged(&block, wrong, marked);
        self.case(label, received, marks).made_from(&block)
    }

    fn damaged(&mut self, block: &[u16], wrong: usize, marked: usize) -> (Vec<u16>, Vec<u8>) {
        let mut received = block.to_vec();
        let places = self.random.places(self.n, wrong + marked);
        self.spoil(&places[..wrong], &mut received);
        let marks = self.mark(&places[wrong..], &mut received);
        (received, marks)
    }

    fn spoil(&mut self, places: &[usize], received: &mut [u16]) {
        for &place in places {
            received[place] ^= self.random.within(1, self.field.order()) as u16;
        }
    }

    /// Marks the places. "The value of a marked word is ignored": it stays right, or becomes
    /// anything, 2^B and more included.
    fn mark(&mut self, places: &[usize], received: &mut [u16]) -> Vec<u8> {
        let mut marks = vec![0; self.n];
        let largest = self.field.order();
        let style = self.random.below(5);
        for &place in places {
            marks[place] = 1;
            received[place] = match style {
                0 => received[place],
                1 => 0,
                2 => self.random.within(0, largest) as u16,
                3 => self.random.within(largest + 1, 65_535) as u16,
                _ => self.random.pick(&[65_535, largest as u16 + 1]),
            };
        }
        marks
    }

    /// r and e with 2r + e equal to `total`. For a total up to K + 1 there is room for them,
    /// since r + e is then at most K + 1, and that at most n.
    fn split(&mut self, total: usize, most_marked: usize) -> (usize, usize) {
        let marked = self.random.within(0, most_marked.min(total));
        let marked = marked + (total - marked) % 2;
        ((total - marked) / 2, marked)
    }
}

fn clean(draw: &mut Draw) -> Case {
    draw.made("clean", 0, 0)
}

fn wrong_only(draw: &mut Draw) -> Case {
    let wrong = draw.random.within(0, draw.k / 2);
    draw.made("wrong words, none marked", wrong, 0)
}

fn mixed(draw: &mut Draw) -> Case {
    let marked = draw.random.within(0, draw.k);
    let wrong = draw.random.within(0, (draw.k - marked) / 2);
    draw.made("within the limit", wrong, marked)
}

fn at_limit(draw: &mut Draw) -> Case {
    let most = draw.random.pick(&[0, 3, draw.k]);
    let (wrong, marked) = draw.split(draw.k, most);
    draw.made("exactly at 2r + e = K", wrong, marked)
}

fn one_beyond(draw: &mut Draw) -> Case {
    let most = draw.random.pick(&[0, 3, draw.k + 1]);
    let (wrong, marked) = draw.split(draw.k + 1, most);
    draw.made("2r + e = K + 1", wrong, marked)
}

fn far_beyond(draw: &mut Draw) -> Case {
    let marked = draw.random.within(0, draw.k);
    let least = (draw.k - marked) / 2 + 1;
    let wrong = draw.random.within(least, draw.n - marked);
    draw.made("far beyond", wrong, marked)
}

fn nearly_all_checks_marked(draw: &mut Draw) -> Case {
    let wrong = draw.random.below(2);
    draw.made("K - 1 marked", wrong, draw.k - 1)
}

fn all_checks_marked(draw: &mut Draw) -> Case {
    let wrong = draw.random.below(2);
    draw.made("K marked", wrong, draw.k)
}

/// "Copying a block whose checks came out zero without testing 2r + e against K": most of
/// these are whole valid blocks.
fn over_marked(draw: &mut Draw) -> Case {
    let block = draw.block();
    let some = draw.random.within(draw.k + 1, draw.n);
    let marked = draw.random.pick(&[draw.k + 1, draw.n, some]);
    let (mut received, marks) = draw.damaged(&block, 0, marked);
    if !draw.random.chance(3) {
        received = block;
    }
    draw.case("more than K marked", received, marks)
        .knowing(Err(34))
}

fn garbage(draw: &mut Draw) -> Case {
    let mut received = draw.random.words(draw.field.bits, draw.n);
    let some = draw.random.within(1, draw.n);
    let marked = draw.random.pick(&[0, some]);
    let places = draw.random.places(draw.n, marked);
    let marks = draw.mark(&places, &mut received);
    draw.case("garbage", received, marks)
}

fn zeros(draw: &mut Draw) -> Case {
    let block = vec![0; draw.n];
    let total = draw.random.pick(&[0, 1, draw.k, draw.k + 1]);
    let (wrong, marked) = draw.split(total, total);
    let (received, marks) = draw.damaged(&block, wrong, marked);
    draw.case("a block of all zeros", received, marks)
        .made_from(&block)
}

/// Wrong words side by side at the start, at the end or anywhere: first and last word are
/// where a place is miscounted.
fn burst(draw: &mut Draw) -> Case {
    let block = draw.block();
    let length = draw.random.within(1, (draw.k / 2 + 1).min(draw.n));
    let last = draw.n - length;
    let anywhere = draw.random.within(0, last);
    let start = draw.random.pick(&[0, last, anywhere]);
    let mut received = block.clone();
    let places: Vec<usize> = (start..start + length).collect();
    draw.spoil(&places, &mut received);
    draw.case("a burst", received, vec![0; draw.n])
        .made_from(&block)
}

/// Words on the way from one valid block to another that is as near as can be, K + 1 words
/// apart: the hardest to judge, many at equal distances.
fn between_two(draw: &mut Draw) -> Case {
    let (n, k) = (draw.n, draw.k);
    let places = draw.random.places(n, k + 1);
    // One word set and K free: the valid block of weight K + 1 on these places.
    let mut apart = vec![0; n];
    draw.spoil(&places[..1], &mut apart);
    let sums = syndromes(draw.field, &apart, k);
    let apart = filled(draw.field, &apart, &places[1..], &sums);

    let first = draw.block();
    let second: Vec<u16> = first.iter().zip(&apart).map(|(a, b)| a ^ b).collect();
    let most = draw.random.pick(&[0, 2.min(k), k]);
    let marked = draw.random.within(0, most);
    let rest = k + 1 - marked;
    let some = draw.random.within(0, rest);
    let from_first = draw.random.pick(&[rest / 2, rest.div_ceil(2), some]);
    let mut received = second.clone();
    for &place in &places[marked..marked + from_first] {
        received[place] = first[place];
    }
    let marks = draw.mark(&places[..marked], &mut received);
    draw.case("between two blocks", received, marks)
        .made_from(&first)
        .made_from(&second)
}

/// The last n words of a longer valid block with words other than 0 before them: to a
/// locator, these look like wrong words at places that the block of n doesn't have.
///
/// Put zeros before the n words. The longer block is then within its limit by the numbers
/// chosen, so no other valid block is, and none of n words with zeros before it.
fn outside_the_block(draw: &mut Draw) -> Case {
    let (n, k) = (draw.n, draw.k);
    let room = draw.field.order() - n;
    if room == 0 || k < 2 {
        return far_beyond(draw);
    }
    let some = draw.random.within(1, room);
    let before = draw.random.pick(&[1, room, some]);
    let outside = draw.random.within(1, (k / 2).min(before));
    let marked = draw.random.within(0, k - 2 * outside);
    let wrong = draw.random.within(0, (k - marked) / 2 - outside);
    let mut data = vec![0; before];
    let places = draw.random.places(before, outside);
    draw.spoil(&places, &mut data);
    data.extend(draw.random.words(draw.field.bits, n - k));
    let block = Maker::new(draw.field, k).block(&data)[before..].to_vec();
    let (received, marks) = draw.damaged(&block, wrong, marked);
    draw.case("wrong places outside the block", received, marks)
        .knowing(Err(34))
}
