//! Times of the library's reader: one tag of the bench, the largest beside the corrector's
//! own time on its block, every shape, and the worst grids there are.

use super::calls::{with_library, Decode};
use super::timed::Call;
use crate::cases::grids::texts::{lettered, most_data};
use crate::cases::kinds::mixed;
use crate::cases::sheet::{Damage, Sheet};
use crate::guard::correct;
use crate::random::Random;
use crate::reader::sampled::Sampled;
use crate::reader::steps::STEPS;
use crate::reader::words::values;
use crate::reader::{block_marks, block_words};
use crate::stream::words_of;
use crate::symbol::fit;
use crate::symbol::shape::{self, Shape};
use crate::times::Times;
use std::hint::black_box;
use std::process::ExitCode;

const SEED: u64 = 151;

pub fn run() -> ExitCode {
    with_library(|decode| {
        let mut bench = Bench {
            decode,
            random: Random::new(SEED),
            right: true,
            slowest: (Times::ZERO, String::new()),
        };
        bench.small();
        bench.beside_the_corrector();
        bench.every_shape();
        bench.worst();
        let (times, title) = &bench.slowest;
        let (fast, slow) = (times.fast * 1e3, times.slow * 1e3);
        println!("the slowest of all ({title}): fastest {fast:.2}, slowest {slow:.2} ms");
        if !bench.right {
            println!("an answer of the library was not as due");
        }
        ExitCode::from(u8::from(!bench.right))
    })
}

struct Bench {
    decode: Decode,
    random: Random,
    right: bool,
    /// The times of the slowest grid so far, and its title.
    slowest: (Times, String),
}

impl Bench {
    /// Prints two lines for a grid.
    fn row(&mut self, title: &str, modules: &[u8], side: usize) {
        let mut call = Call::new(self.decode, modules, side);
        let times = Times::of(|| call.once());
        self.told(title, &call, times);
    }

    fn told(&mut self, title: &str, call: &Call, times: Times) {
        self.right &= call.is_right();
        let (side, number, len) = (call.side, call.due.number, call.due.length);
        println!("{title}: side {side}, number {number}, {len} bytes");
        println!("  {}", times.told("a grid"));
        // By the fastest run: the slowest goes with whatever else is going on.
        if times.fast > self.slowest.0.fast {
            self.slowest = (times, title.to_string());
        }
    }

    fn small(&mut self) {
        let fit = fit(b"POT", 23).expect("a tag of the bench");
        self.row("POT, clean", &fit.modules(), fit.shape.side());
    }

    /// F32 with D data words that letters fill.
    fn largest(&mut self, data_words: usize) -> Sheet {
        let shape = Shape::full(32);
        let (_, data) = lettered(&mut self.random, shape, data_words);
        Sheet::new(shape, &data, 0)
    }

    /// F32 at 23 percent with fifty wrong words; and the corrector alone on the same words
    /// and marks.
    fn beside_the_corrector(&mut self) {
        let shape = Shape::full(32);
        let mut sheet = self.largest(shape.most_data(23));
        let damage = Damage {
            wrong: 50,
            ..Damage::default()
        };
        sheet.spoil_block(&mut self.random, damage);
        let grid = Sampled::new(&sheet.modules, shape.side() as u32).expect("a lawful grid");
        let words = block_words(&grid, shape, sheet.position);
        let marks = block_marks(&STEPS, &words, sheet.data_words);
        let received = values(&words);
        let mut found = vec![0; received.len()];
        let (size, checks) = (shape.word_size(), sheet.check_words());
        let mut right = true;
        let mut call = Call::new(self.decode, &sheet.modules, shape.side());
        let alone =
            || right &= correct(size, checks, black_box(&received), &marks, &mut found) == 0;
        let (whole, alone) = Times::side_by_side(|| call.once(), alone);
        self.told("F32 at 23 percent, fifty wrong words", &call, whole);
        self.right &= right && found == sheet.block;
        println!("  corrector alone: {}", alone.told("a block"));
        let (fast, slow) = (whole.fast / alone.fast, whole.slow / alone.slow);
        println!("  reader/corrector  fastest {fast:.2}, slowest {slow:.2}");
    }

    /// Clean symbols, each shape as full of mixed text as 23 percent allow.
    fn every_shape(&mut self) {
        let text = mixed(5_000);
        let lengths: Vec<usize> = (1..=text.len()).collect();
        for shape in shape::every() {
            let words = |len: usize| words_of(&text[..len], shape.word_size());
            let goes_in = |&len: &usize| words(len).len() <= shape.most_data(23);
            let longest = lengths.partition_point(goes_in);
            let sheet = Sheet::new(shape, &words(longest), 0);
            let title = format!("{}, clean, mixed text", shape.name());
            self.row(&title, &sheet.modules, shape.side());
        }
    }

    /// F32 with the fewest data words, so the most check words, at the limit and beyond it,
    /// and grids that are no symbol.
    fn worst(&mut self) {
        let side = Shape::full(32).side();
        let most = most_data(Shape::full(32));
        for data_words in [1, most / 2, most] {
            let checks = Shape::full(32).words() - data_words;
            let rows = [
                ("wrong words up to the limit", checks / 2, 0),
                ("one wrong word more", checks / 2 + 1, 0),
                ("unread words up to the limit", 0, checks),
                (
                    "wrong and unread words up to the limit",
                    checks / 4,
                    checks - checks / 4 * 2,
                ),
                ("every word wrong", checks + data_words, 0),
            ];
            for (what, wrong, unread) in rows {
                let mut sheet = self.largest(data_words);
                let damage = Damage {
                    wrong,
                    unread,
                    flat: 0,
                };
                sheet.spoil_block(&mut self.random, damage);
                let title = format!("F32, D {data_words}, K {checks}, {what}");
                self.row(&title, &sheet.modules, side);
            }
        }
        for (what, most) in [("0, 1 and 2", 3), ("0 and 1", 2)] {
            let random = &mut self.random;
            let modules: Vec<u8> = (0..side * side).map(|_| random.below(most) as u8).collect();
            self.row(&format!("F32's side, garbage of {what}"), &modules, side);
        }
        for value in 0..3 {
            let modules = vec![value; side * side];
            self.row(&format!("F32's side, every module {value}"), &modules, side);
        }
        // 13 in the last place, and a message that fills the largest buffer.
        let mut sheet = self.largest(most);
        self.row("F32, clean, the most letters", &sheet.modules, side);
        sheet.modules[side * side - 1] = 3;
        self.row("F32, the last module 3", &sheet.modules, side);
    }
}
