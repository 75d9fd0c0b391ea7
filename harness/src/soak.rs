//! Corrector, maker and reader beside the independent ones, for a given time: rounds of cases by
//! chance, each with a seed of its own. The named and exhaustive cases are the gate's.

use crate::cases::grids::{self, limits};
use crate::cases::{self, tags};
use crate::compare::Tally;
use crate::{decode, encode};
use std::process::ExitCode;
use std::time::{Duration, Instant, SystemTime, UNIX_EPOCH};

/// Cases of a round: blocks, messages, grids, and made tags at the limit. A round takes about
/// ten seconds.
const BLOCKS: usize = 4_000;
const TAGS: usize = 1_500;
const GRIDS: usize = 1_000;
const LIMITS: usize = 330;

/// Rounds' seeds are this far apart.
const STEP: u64 = 0x9E37_79B9_7F4A_7C15;

pub fn run(seconds: u64, seed: Option<u64>) -> ExitCode {
    encode::calls::with_library(|encode| {
        decode::calls::with_library(|decode| {
            let first = seed.unwrap_or_else(by_the_clock);
            let mut blocks = Tally::default();
            let mut symbols = encode::compare::Run::new(encode);
            let mut grids = decode::compare::Run::new(decode);
            let start = Instant::now();
            let mut rounds = 0;
            while start.elapsed() < Duration::from_secs(seconds) {
                let seed = first.wrapping_add(STEP.wrapping_mul(rounds));
                cases::drawn(seed, BLOCKS, &mut |case| blocks.case(&case));
                tags::drawn_tags(seed, TAGS, &mut |tag| symbols.tag(&tag));
                grids::drawn(seed, GRIDS, &mut |shot| grids.shot(&shot));
                limits::all(seed, LIMITS, &mut |shot| grids.shot(&shot));
                rounds += 1;
            }
            let parts = [
                ("blocks corrected", &blocks),
                ("calls of the maker", &symbols.tally),
                ("calls of the reader", &grids.tally),
            ];
            println!("seed {first}, {rounds} rounds");
            told(&parts)
        })
    })
}

/// A line for each part, and the sum.
fn told(parts: &[(&str, &Tally)]) -> ExitCode {
    for (what, tally) in parts {
        println!("{what}: {} passed, {} failed", tally.passed, tally.failed);
    }
    let passed: usize = parts.iter().map(|(_, tally)| tally.passed).sum();
    let failed: usize = parts.iter().map(|(_, tally)| tally.failed).sum();
    println!("{passed} passed, {failed} failed");
    ExitCode::from(u8::from(failed > 0 || passed == 0))
}

fn by_the_clock() -> u64 {
    let since = SystemTime::now().duration_since(UNIX_EPOCH);
    since.map_or(0, |since| since.as_nanos() as u64)
}
