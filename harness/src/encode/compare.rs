//! Runs every message and percentage against the library's maker and counts.

use super::calls::{differences, with_library, Due, Encode};
use crate::cases::edges;
use crate::cases::kinds;
use crate::cases::tags::{self, Tag};
use crate::compare::{on_small_stack, Tally};
use crate::stream::{codes, write};
use crate::symbol::{faults, shape};
use std::collections::BTreeMap;
use std::process::ExitCode;

/// Bytes of a message told in full.
const TOLD: usize = 24;

pub fn run(seed: u64, count: usize) -> ExitCode {
    with_library(|encode| {
        let mut run = Run::new(encode);
        run.all(seed, count);
        println!("{} messages with percentages", run.tags);
        println!("shapes: {}", run.told_shapes());
        run.tally.report(seed)
    })
}

/// A maker under test, and what has been seen of it.
pub struct Run {
    encode: Encode,
    pub tally: Tally,
    tags: usize,
    /// How often each shape was due, by its number.
    reached: BTreeMap<usize, usize>,
}

impl Run {
    pub fn new(encode: Encode) -> Run {
        Run {
            encode,
            tally: Tally::default(),
            tags: 0,
            reached: BTreeMap::new(),
        }
    }

    pub fn all(&mut self, seed: u64, count: usize) {
        for fault in own_faults() {
            self.tally.fail(&format!("the harness itself: {fault}"));
        }
        tags::all(seed, count, &mut |tag| self.tag(&tag));
        for shape in shape::listed() {
            if !self.reached.contains_key(&shape.number()) {
                let name = shape.name();
                self.tally.fail(&format!("{name} was never reached"));
            }
        }
    }

    /// One message and percentage, with grid buffers of several lengths. Each is a case.
    pub fn tag(&mut self, tag: &Tag) {
        self.tags += 1;
        let due = Due::of(&tag.message, tag.percent);
        let answer = due.answer(usize::MAX);
        if answer.number == 0 {
            *self.reached.entry(answer.shape as usize).or_default() += 1;
        }
        let turn = self.tags;
        let request = (tag.message.as_slice(), tag.percent);
        let encode = self.encode;
        let lists = on_small_stack(|| {
            let rooms = rooms(due.modules.len(), turn);
            rooms.map(|room| (room, differences(encode, request, &due, room, turn)))
        });
        for (room, list) in lists {
            let number = due.answer(room).number;
            self.tally
                .count(tag.label, number, list, || told(tag, room));
        }
    }

    fn told_shapes(&self) -> String {
        let counts = shape::listed().map(|shape| {
            let count = self.reached.get(&shape.number()).unwrap_or(&0);
            format!("{} {count}x", shape.name())
        });
        counts.collect::<Vec<_>>().join(", ")
    }
}

/// Lengths of grid buffers for a symbol of `modules` modules: exact, longer, one too short,
/// and any length below. After a refusal: none, and lengths that one shape or all would need.
fn rooms(modules: usize, turn: usize) -> [usize; 4] {
    match modules {
        0 => [0, 15 * 15 - turn % 2, 31 * 31, 151 * 151 + turn % 3],
        _ => [
            modules,
            modules + 1 + turn % 173,
            modules - 1,
            turn * 31 % modules,
        ],
    }
}

fn told(tag: &Tag, room: usize) -> String {
    let (label, percent, len) = (tag.label, tag.percent, tag.message.len());
    let start = tag.message[..len.min(TOLD)].escape_ascii();
    format!("{label} ({percent} percent, room {room}, {len} bytes: {start})")
}

/// What the harness builds on, tested before it judges another.
fn own_faults() -> Vec<String> {
    let mut list = faults::all();
    let tables = codes::faults() + kinds::faults() + write::faults();
    if tables > 0 {
        list.push(format!("{tables} faults of tables and printed words"));
    }
    list.extend(edges::faults());
    list
}
