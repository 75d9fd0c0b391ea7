//! Runs every grid against the library's reader and counts.

use super::calls::{answer, differences, with_library, Decode};
use crate::cases::grids::{self, limits, Shot};
use crate::cases::kinds;
use crate::compare::{on_small_stack, Tally};
use crate::reader::{self, Reading};
use crate::stream::{codes, write};
use crate::symbol::position::POSITIONS;
use crate::symbol::{self, shape};
use std::collections::BTreeMap;
use std::process::ExitCode;

/// The reader's numbers.
const NUMBERS: std::ops::RangeInclusive<u32> = 11..=21;

/// More room than any message needs: 7,968 bytes are the most that can be read.
pub const AMPLE: usize = 8_000;

/// Modules from which a grid is large.
const LARGE: usize = 71 * 71;

/// Modules of a grid told in full.
const TOLD: usize = 15 * 15;

pub fn run(seed: u64, count: usize) -> ExitCode {
    with_library(|decode| {
        let mut run = Run::new(decode);
        run.all(seed, count);
        run.told();
        run.tally.report(seed)
    })
}

/// A reader under test, and what has been seen of it.
pub struct Run {
    decode: Decode,
    pub tally: Tally,
    grids: usize,
    /// How often each shape, by its number, and each position was due.
    shapes: BTreeMap<usize, usize>,
    positions: BTreeMap<usize, usize>,
    /// How often the causes of two numbers were put into one call.
    pairs: BTreeMap<(u32, u32), usize>,
}

impl Run {
    pub fn new(decode: Decode) -> Run {
        Run {
            decode,
            tally: Tally::default(),
            grids: 0,
            shapes: BTreeMap::new(),
            positions: BTreeMap::new(),
            pairs: BTreeMap::new(),
        }
    }

    pub fn all(&mut self, seed: u64, count: usize) {
        for fault in own_faults() {
            self.tally.fail(&format!("the harness itself: {fault}"));
        }
        grids::all(seed, count, &mut |shot| self.shot(&shot));
        limits::all(seed, limits::COUNT, &mut |shot| self.shot(&shot));
        for what in self.missing() {
            self.tally.fail(&format!("{what} was never reached"));
        }
    }

    /// One grid, by the independent reader and by construction; these have to agree, or the
    /// harness itself has failed.
    pub fn shot(&mut self, shot: &Shot) {
        let reading = reader::read(&shot.modules, shot.side);
        if shot.known.as_ref().is_some_and(|known| *known != reading) {
            let known = shot.known.as_ref();
            self.tally.fail(&format!(
                "the harness itself: two answers to {}: {reading:?}, by construction {known:?}",
                told(shot, self.grids + 1, 0)
            ));
        }
        self.judged(shot, &reading);
    }

    /// The library's answers for one grid, with message buffers of several lengths. Each is a
    /// case.
    pub fn judged(&mut self, shot: &Shot, reading: &Reading) {
        self.grids += 1;
        if let Ok(read) = reading {
            *self.shapes.entry(read.shape.number()).or_default() += 1;
            *self.positions.entry(read.position).or_default() += 1;
        }
        let turn = self.grids;
        let request = (shot.modules.as_slice(), shot.side);
        let decode = self.decode;
        let rooms = rooms(shot, reading, turn);
        let lists = on_small_stack(|| {
            let call = |&room: &usize| differences(decode, request, reading, room, turn);
            rooms.iter().map(call).collect::<Vec<_>>()
        });
        for (&room, list) in rooms.iter().zip(lists) {
            let number = answer(reading, room).number;
            self.count_pairs(shot, room);
            self.tally
                .count(shot.label, number, list, || told(shot, turn, room));
        }
    }

    fn count_pairs(&mut self, shot: &Shot, room: usize) {
        let mut faults = shot.faults.clone();
        if room < shot.bytes {
            faults.push(21);
        }
        for (i, &first) in faults.iter().enumerate() {
            for &second in &faults[i + 1..] {
                *self.pairs.entry((first, second)).or_default() += 1;
            }
        }
    }

    /// Numbers, pairs of numbers, shapes and positions that no case was due to.
    fn missing(&self) -> Vec<String> {
        let numbers = NUMBERS.chain([0]);
        let numbers = numbers.filter(|number| !self.tally.numbers.contains_key(number));
        let mut list: Vec<String> = numbers.map(|number| format!("number {number}")).collect();
        let pairs = NUMBERS.flat_map(|a| (a + 1..=*NUMBERS.end()).map(move |b| (a, b)));
        let pairs = pairs.filter(|pair| !self.pairs.contains_key(pair));
        list.extend(pairs.map(|(a, b)| format!("{a} against {b}")));
        let shapes = shape::every().filter(|shape| !self.shapes.contains_key(&shape.number()));
        list.extend(shapes.map(|shape| shape.name()));
        let positions = (0..POSITIONS).filter(|position| !self.positions.contains_key(position));
        list.extend(positions.map(|position| format!("position {position}")));
        list
    }

    fn told(&self) {
        println!("{} grids", self.grids);
        let shapes = shape::every().map(|shape| {
            let count = self.shapes.get(&shape.number()).unwrap_or(&0);
            format!("{} {count}x", shape.name())
        });
        println!("shapes read: {}", joined(shapes));
        let positions = self.positions.iter();
        let positions = positions.map(|(position, count)| format!("{position} {count}x"));
        println!("positions read: {}", joined(positions));
        let least = self.pairs.values().min().unwrap_or(&0);
        let pairs = self.pairs.len();
        println!("pairs of numbers put into one call: {pairs}, each {least}x or more");
    }
}

fn joined(list: impl Iterator<Item = String>) -> String {
    list.collect::<Vec<_>>().join(", ")
}

/// Lengths of message buffers. For a message: exact and longer, one too short and none, or
/// any shorter one; large grids have two of these. After a refusal: none, or too short for
/// what was put in; and ample.
fn rooms(shot: &Shot, reading: &Reading, turn: usize) -> Vec<usize> {
    let Ok(read) = reading else {
        return vec![[0, shot.bytes.saturating_sub(1)][turn % 2], AMPLE];
    };
    let len = read.message.len();
    let longer = len + 1 + turn % 173;
    if len == 0 {
        return vec![0, longer];
    }
    let rooms = [len, len - 1, longer, [0, turn * 31 % len][turn / 2 % 2]];
    match shot.modules.len() < LARGE {
        true => rooms.to_vec(),
        false => rooms[turn % 2 * 2..][..2].to_vec(),
    }
}

/// A case in one line; `turn` counts the grids of a seed.
fn told(shot: &Shot, turn: usize, room: usize) -> String {
    let (label, side, len) = (shot.label, shot.side, shot.modules.len());
    let mut text = format!("{label} (grid {turn}, side {side}, {len} modules, room {room})");
    if len <= TOLD {
        let modules = shot.modules.iter().map(|module| format!("{module}"));
        text += &format!(" {}", modules.collect::<String>());
    }
    text
}

/// What the harness builds on, tested before it judges another.
fn own_faults() -> Vec<String> {
    let mut list = symbol::faults::all();
    list.extend(reader::faults::all());
    let tables = codes::faults() + kinds::faults() + write::faults();
    if tables > 0 {
        list.push(format!("{tables} faults of tables and printed words"));
    }
    list
}
