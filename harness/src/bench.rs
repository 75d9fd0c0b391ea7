//! Times of the library beside libfec's on the same blocks, in the same run.

use crate::cases::large::made;
use crate::cases::Case;
use crate::guard::correct;
use crate::peer::Peer;
use crate::random::Random;
use std::hint::black_box;
use std::process::ExitCode;
use std::time::Instant;

const RUNS: usize = 11;

/// A row of the bench: blocks of one code, gone through `rounds` times in a run.
struct Row {
    title: &'static str,
    bits: u32,
    n: usize,
    k: usize,
    /// Wrong and marked words of each block.
    damage: (usize, usize),
    blocks: usize,
    rounds: usize,
    runs: usize,
    /// What the times are printed in, and how many of it are in a second and a run.
    unit: (&'static str, f64),
}

const ROWS: [Row; 6] = [
    Row {
        title: "a hundred F32 blocks (B 12, n 1,664, K 386), fifty wrong words each",
        bits: 12,
        n: 1_664,
        k: 386,
        damage: (50, 0),
        blocks: 100,
        rounds: 1,
        runs: RUNS,
        unit: ("ms per hundred", 1e3),
    },
    smallest("C1 (B 6, n 17, K 7), clean", (0, 0)),
    smallest("C1 (B 6, n 17, K 7), three wrong words", (3, 0)),
    largest("B 12, n 4,095, K 4,094, 2,047 wrong words", (2_047, 0)),
    largest("B 12, n 4,095, K 4,094, 4,094 marked words", (0, 4_094)),
    largest("B 12, n 4,095, K 4,094, garbage", (4_095, 0)),
];

const fn smallest(title: &'static str, damage: (usize, usize)) -> Row {
    Row {
        title,
        bits: 6,
        n: 17,
        k: 7,
        damage,
        blocks: 100,
        rounds: 100,
        runs: RUNS,
        unit: ("ns a call", 1e9 / 1e4),
    }
}

const fn largest(title: &'static str, damage: (usize, usize)) -> Row {
    Row {
        title,
        bits: 12,
        n: 4_095,
        k: 4_094,
        damage,
        blocks: 1,
        rounds: 1,
        runs: 3,
        unit: ("s a call", 1.0),
    }
}

pub fn run() -> ExitCode {
    let mut right = true;
    for row in &ROWS {
        println!("{}", row.title);
        right &= row.measured();
    }
    if !right {
        println!("an answer of the library was not the block that was made");
    }
    ExitCode::from(u8::from(!right))
}

impl Row {
    /// Prints the row; whether the library's answers were right.
    fn measured(&self) -> bool {
        let mut random = Random::new(1_664);
        let cases: Vec<Case> = (0..self.blocks)
            .map(|_| made(&mut random, (self.bits, self.n, self.k), self.damage))
            .collect();
        let peer = Peer::new(self.bits, self.n, self.k);
        let (mut ours, mut theirs) = (Vec::new(), Vec::new());
        let (mut right, mut peer_right) = (true, true);
        for _ in 0..self.runs {
            let (seconds, same) = self.library_run(&cases);
            ours.push(seconds * self.unit.1);
            right &= same;
            if let Some(peer) = &peer {
                let (seconds, same) = peer.run(&cases, self.rounds);
                theirs.push(seconds * self.unit.1);
                peer_right &= same;
            }
        }
        let (fast, slow) = self.printed("library", &ours);
        if peer.is_some() {
            let (peer_fast, peer_slow) = self.printed("libfec ", &theirs);
            let (fast, slow) = (fast / peer_fast, slow / peer_slow);
            println!("  library/libfec  fastest {fast:.2}, slowest {slow:.2}");
            if !peer_right {
                println!("  libfec's answers were not all as made");
            }
        } else {
            println!("  libfec   not built with libfec (cargo build --features libfec)");
        }
        right
    }

    fn printed(&self, name: &str, times: &[f64]) -> (f64, f64) {
        let fast = times.iter().copied().fold(f64::INFINITY, f64::min);
        let slow = times.iter().copied().fold(0.0, f64::max);
        let (unit, runs) = (self.unit.0, self.runs);
        println!("  {name}  fastest {fast:.3}, slowest {slow:.3} {unit} ({runs} runs)");
        (fast, slow)
    }

    /// Seconds, and whether every block came out as made.
    fn library_run(&self, cases: &[Case]) -> (f64, bool) {
        let mut found = vec![vec![0; self.n]; cases.len()];
        let mut numbers = vec![0; cases.len()];
        let start = Instant::now();
        for _ in 0..self.rounds {
            let outputs = found.iter_mut().zip(&mut numbers);
            for (case, (block, number)) in cases.iter().zip(outputs) {
                let call = black_box(&case.call);
                *number = correct(call.word_size, self.k, &call.received, &call.marks, block);
            }
        }
        let seconds = start.elapsed().as_secs_f64();
        let outputs = found.iter().zip(&numbers);
        let right = outputs
            .zip(cases)
            .all(|((block, &number), case)| match &case.known {
                Some(Ok(made)) => number == 0 && block == made,
                _ => number == 34,
            });
        (seconds, right)
    }
}
