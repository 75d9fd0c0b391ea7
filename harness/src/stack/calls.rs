//! The calls whose stack is measured: every shape and word size, clean, damaged to the limit and
//! beyond it, and the largest blocks, so that each way through an entry is taken.

use crate::cases::grids::texts::lettered;
use crate::cases::large::made;
use crate::cases::sheet::{Damage, Sheet};
use crate::decode::calls as decoding;
use crate::encode::calls as encoding;
use crate::field::SIZES;
use crate::guard::correct;
use crate::random::Random;
use crate::symbol::shape::{self, Shape};

const SEED: u64 = 256;

/// Enough for every grid, and for every message.
const GRID: usize = 151 * 151;
const MESSAGE: usize = 8192;

pub struct Call {
    pub entry: &'static str,
    pub title: String,
    pub make: Box<dyn FnMut()>,
}

pub fn all() -> Vec<Call> {
    let mut random = Random::new(SEED);
    let mut calls = blocks(&mut random);
    calls.extend(messages(&mut random));
    calls.extend(grids(&mut random));
    calls
}

/// Lengths around which the corrector changes its ways, with few check words and with many.
fn blocks(random: &mut Random) -> Vec<Call> {
    let mut calls = Vec::new();
    for bits in SIZES {
        let lengths = [7, 17, 63, 64, 240, 255, 256, 1_023, 1_664, 4_095];
        for n in lengths.into_iter().filter(|&n| n < 1 << bits) {
            for k in [3, n / 3 + 1, n - 1] {
                for damage in [(0, 0), (k / 2, 0), (k / 4, k / 2), (0, k), (k / 2 + 1, 0)] {
                    calls.push(block(random, (bits, n, k), damage));
                }
            }
        }
    }
    calls
}

fn block(random: &mut Random, (bits, n, k): (u32, usize, usize), damage: (usize, usize)) -> Call {
    let call = made(random, (bits, n, k), damage).call;
    let mut corrected = vec![0; n];
    Call {
        entry: "aztec_correct",
        title: format!("B {bits}, n {n}, K {k}, wrong and marked {damage:?}"),
        make: Box::new(move || {
            correct(bits, k, &call.received, &call.marks, &mut corrected);
        }),
    }
}

/// A message that fills each listed shape at 23 percent, one of bytes alone, and refusals.
fn messages(random: &mut Random) -> Vec<Call> {
    let mut messages = vec![
        (vec![0; 500], 23),
        (Vec::new(), 23),
        (vec![48; 6_000], 5),
        (vec![65], 4),
    ];
    for shape in shape::listed() {
        messages.push((lettered(random, shape, shape.most_data(23)).0, 23));
    }
    messages
        .into_iter()
        .map(|(text, percent)| message(text, percent))
        .collect()
}

fn message(text: Vec<u8>, percent: u32) -> Call {
    let encode = encoding::library().expect("the archive has a maker");
    let mut grid = vec![0; GRID];
    Call {
        entry: "aztec_encode",
        title: format!("{} bytes at {percent} percent", text.len()),
        make: Box::new(move || {
            encoding::encoded(encode, &text, percent, &mut grid);
        }),
    }
}

/// A tag of each of the 36 shapes, clean, at the limit by wrong and unread words, and beyond it;
/// and a grid that is refused before its words are read.
fn grids(random: &mut Random) -> Vec<Call> {
    let mut calls = vec![grid("a light grid".into(), vec![0; GRID], 151)];
    for shape in shape::every() {
        calls.push(tag(random, shape, |_| Damage::default()));
        for (unread, beyond) in [(0, 0), (0, 1), (2, 0), (2, 1)] {
            calls.push(tag(random, shape, |checks| Damage {
                wrong: (checks - unread) / 2 + beyond,
                unread,
                flat: 0,
            }));
        }
    }
    calls
}

/// A tag of a shape with the damage that goes with K.
fn tag(random: &mut Random, shape: Shape, damage: impl Fn(usize) -> Damage) -> Call {
    let (_, data) = lettered(random, shape, shape.most_data(23).max(1));
    let mut sheet = Sheet::new(shape, &data, 5);
    let damage = damage(sheet.check_words());
    sheet.spoil_block(random, damage);
    let title = format!("{}, {damage:?}", shape.name());
    grid(title, sheet.modules, shape.side())
}

fn grid(title: String, modules: Vec<u8>, side: usize) -> Call {
    let decode = decoding::library().expect("the archive has a reader");
    let mut message = vec![0; MESSAGE];
    Call {
        entry: "aztec_decode",
        title,
        make: Box::new(move || {
            decoding::decoded(decode, &modules, side as u32, &mut message);
        }),
    }
}
