//! Grids that the reader refuses, so that each stage is the last of some: made from symbols as
//! full of mixed text as 23 percent allow, the smallest and the largest above all.

use crate::cases::grids::texts::sayable;
use crate::cases::grids::{answer, items, Shot};
use crate::cases::sheet::{Damage, Sheet};
use crate::cases::timed::{filled, Timed};
use crate::decode::calls;
use crate::decode::compare::AMPLE;
use crate::random::Random;
use crate::reader;
use crate::reader::sampled::UNREAD;
use crate::symbol::shape::Shape;

/// The grids never change, so that two comparisons time the same modules.
const SEED: u64 = 11;

pub struct Refused {
    pub title: String,
    pub side: u32,
    pub modules: Vec<u8>,
    /// Bytes of the message buffer.
    pub room: usize,
    pub number: u32,
}

/// The number, what is done to a whole symbol, and how.
type Row = (u32, &'static str, fn(&mut Random, &mut Sheet));

/// Of C1 and F32.
const CORES: [Row; 8] = [
    (12, "a module less", |_, sheet| {
        sheet.modules.pop();
    }),
    (13, "the last module 3", |_, sheet| {
        *sheet.modules.last_mut().expect("a grid") = 3;
    }),
    (14, "orientation modules unread", |_, sheet| {
        for index in sheet.orientation_indexes() {
            sheet.modules[index] = UNREAD;
        }
    }),
    (14, "all light", |_, sheet| sheet.modules.fill(0)),
    (15, "too many mode words unread", |random, sheet| {
        sheet.spoil_mode(random, unread(sheet.mode_checks() + 1));
    }),
    (15, "too many mode words wrong", |random, sheet| {
        sheet.spoil_mode(random, wrong(sheet.mode_checks() / 2 + 1));
    }),
    (16, "another L said", |_, sheet| {
        let layers = 1 + sheet.shape.layers % sheet.shape.either(4, 32);
        say(sheet, (layers, sheet.data_words));
    }),
    (16, "the largest D said", |_, sheet| {
        say(sheet, (sheet.shape.layers, sayable(sheet.shape)));
    }),
];

/// Of a shape of each word size; 2r + e is K + 1, or K + 2 where K is even and all are wrong.
const BLOCKS: [Row; 3] = [
    (17, "K + 1 words unread", |random, sheet| {
        sheet.spoil_block(random, unread(sheet.check_words() + 1));
    }),
    (17, "K / 2 + 1 words wrong", |random, sheet| {
        sheet.spoil_block(random, wrong(sheet.check_words() / 2 + 1));
    }),
    (17, "K − 1 words unread, one wrong", |random, sheet| {
        let unread = sheet.check_words() - 1;
        sheet.spoil_block(random, Damage { unread, ..wrong(1) });
    }),
];

/// Of C1 and F32: letters instead, and behind them what is at fault.
const ITEMS: [Row; 3] = [
    (18, "a flat word", |random, sheet| write(random, sheet, 18)),
    (19, "FLG or a bad shift", |random, sheet| {
        write(random, sheet, 19)
    }),
    (20, "an item cut short", |random, sheet| {
        write(random, sheet, 20)
    }),
];

pub fn all() -> Vec<Refused> {
    let compact = [1, 4].map(Shape::compact).map(filled);
    let full = [16, 32].map(Shape::full).map(filled);
    let ([c1, c4], [f16, largest]) = (&compact, &full);
    let mut list = vec![bad_side(c1), bad_side(largest)];
    list.extend(rows(&CORES, &[c1, largest]));
    list.extend(rows(&BLOCKS, &[c1, c4, f16, largest]));
    list.extend(rows(&ITEMS, &[c1, largest]));
    list.extend([c4, largest].map(short_buffer));
    list
}

/// Each row of each symbol.
fn rows(rows: &[Row], symbols: &[&Timed]) -> Vec<Refused> {
    let of = |row| symbols.iter().map(move |symbol| spoilt(row, symbol));
    rows.iter().flat_map(of).collect()
}

fn spoilt((number, what, spoil): &Row, symbol: &Timed) -> Refused {
    let mut sheet = symbol.sheet.clone();
    spoil(&mut Random::new(SEED), &mut sheet);
    let shot = Shot::of(what, sheet).refused(vec![*number]);
    refused(&symbol.name, shot, AMPLE)
}

/// The side next to a shape's, with as many modules as it asks for.
fn bad_side(symbol: &Timed) -> Refused {
    let mut modules = symbol.sheet.modules.clone();
    let side = symbol.sheet.shape.side() + 2;
    modules.resize(side * side, 0);
    let shot = Shot::new("no shape's", side as u32, modules);
    refused(&format!("side {side}"), shot.refused(vec![11]), AMPLE)
}

/// A clean symbol, and a byte less than its message.
fn short_buffer(symbol: &Timed) -> Refused {
    let Timed { message, sheet, .. } = symbol;
    let shot = Shot::of("a buffer a byte too short", sheet.clone());
    let shot = shot.knowing(answer(sheet, message, 0, 0));
    refused(&symbol.name, shot, message.len() - 1)
}

/// What is known of a grid has to be the independent reader's answer too.
fn refused(name: &str, shot: Shot, room: usize) -> Refused {
    let known = shot.known.expect("an answer by construction");
    let number = calls::answer(&known, room).number;
    let title = format!("{number}, {name}, {}", shot.label);
    let read = reader::read(&shot.modules, shot.side);
    assert_eq!(read, known, "the harness itself: two answers to {title}");
    Refused {
        title,
        side: shot.side,
        modules: shot.modules,
        room,
        number,
    }
}

fn unread(unread: usize) -> Damage {
    Damage {
        unread,
        ..Damage::default()
    }
}

fn wrong(wrong: usize) -> Damage {
    Damage {
        wrong,
        ..Damage::default()
    }
}

/// Draws the same data words with mode words that say L and D otherwise.
fn say(sheet: &mut Sheet, said: (usize, usize)) {
    let data = &sheet.block[..sheet.data_words];
    *sheet = Sheet::saying(sheet.shape, data, sheet.position, said);
}

/// Draws data words at fault; the letters leave a large symbol few check words.
fn write(random: &mut Random, sheet: &mut Sheet, number: u32) {
    let (_, data) = items::data(random, sheet.shape, &[number]);
    *sheet = Sheet::new(sheet.shape, &data, sheet.position);
}
