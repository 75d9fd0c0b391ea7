//! The corrector's blocks, beside libfec's where the harness was built with it.

use super::table::{Table, Unit};
use super::turns::{Answer, Both, Job, Outcome};
use super::Library;
use crate::cases::large::made;
use crate::cases::Case;
use crate::guard::{correct_by, untouched};
use crate::peer::Peer;
use crate::random::Random;
use std::hint::black_box;

/// The blocks never change, so that two comparisons time the same words.
const SEED: u64 = 1_664;

/// Blocks of (B, n, K), different ones, so that no branch predictor learns them by heart.
#[derive(Clone, Copy)]
struct Code {
    title: &'static str,
    sizes: (u32, usize, usize),
    blocks: usize,
    unit: Unit,
}

const HUNDRED: Code = Code {
    title: "a hundred F32 blocks (B 12, n 1,664, K 386)",
    blocks: 100,
    unit: Unit::HUNDRED,
    ..F32
};
const F32: Code = Code {
    title: "F32 (B 12, n 1,664, K 386)",
    sizes: (12, 1_664, 386),
    blocks: 10,
    unit: Unit::MICRO,
};
const F16: Code = Code {
    title: "F16 (B 10, n 588, K 139)",
    sizes: (10, 588, 139),
    blocks: 10,
    unit: Unit::MICRO,
};
const F9: Code = Code {
    title: "F9 (B 10, n 230, K 56)",
    sizes: (10, 230, 56),
    blocks: 10,
    unit: Unit::MICRO,
};
const F8: Code = Code {
    title: "F8 (B 8, n 240, K 59)",
    sizes: (8, 240, 59),
    blocks: 10,
    unit: Unit::MICRO,
};
const C4: Code = Code {
    title: "C4 (B 8, n 76, K 22)",
    sizes: (8, 76, 22),
    blocks: 100,
    unit: Unit::MICRO,
};
const C1: Code = Code {
    title: "C1 (B 6, n 17, K 7)",
    sizes: (6, 17, 7),
    blocks: 100,
    unit: Unit::NANO,
};
const COMPACT_MODE: Code = Code {
    title: "compact mode words (B 4, n 7, K 5)",
    sizes: (4, 7, 5),
    blocks: 100,
    unit: Unit::NANO,
};
const FULL_MODE: Code = Code {
    title: "full mode words (B 4, n 10, K 6)",
    sizes: (4, 10, 6),
    blocks: 100,
    unit: Unit::NANO,
};
const LARGEST: Code = Code {
    title: "B 12, n 4,095, K 4,094",
    sizes: (12, 4_095, 4_094),
    blocks: 1,
    unit: Unit::MILLI,
};

/// The code, what is wrong with its blocks, and how many words of each are wrong and marked.
type Row = (Code, &'static str, (usize, usize));

const ROWS: [Row; 18] = [
    (HUNDRED, "fifty wrong words each", (50, 0)),
    (F32, "clean", (0, 0)),
    (F32, "193 wrong words", (193, 0)),
    (F32, "20 wrong, 100 marked", (20, 100)),
    (F16, "clean", (0, 0)),
    (F16, "20 wrong words", (20, 0)),
    (F9, "10 wrong words", (10, 0)),
    (F8, "clean", (0, 0)),
    (F8, "10 wrong words", (10, 0)),
    (C4, "clean", (0, 0)),
    (C4, "4 wrong words", (4, 0)),
    (C1, "clean", (0, 0)),
    (C1, "3 wrong words", (3, 0)),
    (COMPACT_MODE, "clean", (0, 0)),
    (FULL_MODE, "1 wrong word", (1, 0)),
    (LARGEST, "2,047 wrong words", (2_047, 0)),
    (LARGEST, "4,094 marked words", (0, 4_094)),
    (LARGEST, "garbage", (4_095, 0)),
];

pub fn all(both: &Both, table: &mut Table) {
    table.begin("Corrector", cfg!(feature = "libfec"));
    let rows = ROWS.iter().map(|row| measured(both, table, row));
    let outcomes: Vec<Outcome> = rows.collect();
    table.extremes("The hundred F32 blocks", HUNDRED.unit, &outcomes[0]);
}

fn measured(both: &Both, table: &mut Table, (code, what, damage): &Row) -> Outcome {
    let mut random = Random::new(SEED);
    let cases: Vec<Case> = (0..code.blocks)
        .map(|_| made(&mut random, code.sizes, *damage))
        .collect();
    let (bits, n, k) = code.sizes;
    let peer = Peer::new(bits, n, k);
    let mut peer_right = true;
    let mut job = Blocks::new(&cases);
    let outcome = both.timed(&mut job, |rounds| {
        let (seconds, right) = peer.as_ref()?.run(&cases, rounds);
        peer_right &= right;
        Some(seconds)
    });
    let title = format!("{}, {what}", code.title);
    table.row(&title, code.unit, &outcome);
    if !peer_right {
        table.note(&format!("{title}: libfec's answers were not all as made"));
    }
    outcome
}

struct Blocks<'a> {
    cases: &'a [Case],
    found: Vec<Vec<u16>>,
    numbers: Vec<u32>,
}

impl Blocks<'_> {
    fn new(cases: &[Case]) -> Blocks<'_> {
        let before = |case: &Case| untouched(case.call.corrected_len);
        Blocks {
            cases,
            found: cases.iter().map(before).collect(),
            numbers: vec![0; cases.len()],
        }
    }
}

impl Job for Blocks<'_> {
    fn reset(&mut self) {
        for block in &mut self.found {
            let before = untouched(block.len());
            block.copy_from_slice(&before);
        }
        self.numbers.fill(u32::MAX);
    }

    fn once(&mut self, library: &Library) {
        let outputs = self.found.iter_mut().zip(&mut self.numbers);
        for (case, (block, number)) in self.cases.iter().zip(outputs) {
            let call = black_box(&case.call);
            let (size, checks) = (call.word_size, call.check_words);
            let (received, marks) = (&call.received, &call.marks);
            *number = correct_by(library.correct, size, checks, received, marks, block);
        }
    }

    fn answers(&self) -> Vec<Answer> {
        let outputs = self.found.iter().zip(&self.numbers);
        let answer = |(block, &number): (&Vec<u16>, &u32)| Answer {
            fields: vec![number],
            buffer: block.clone(),
        };
        outputs.map(answer).collect()
    }

    fn due(&self) -> Vec<Option<Answer>> {
        self.cases.iter().map(due).collect()
    }
}

fn due(case: &Case) -> Option<Answer> {
    let (number, buffer) = match case.known.as_ref()? {
        Ok(block) => (0, block.clone()),
        Err(number) => (*number, untouched(case.call.corrected_len)),
    };
    Some(Answer {
        fields: vec![number],
        buffer,
    })
}
