//! Compares the library's corrector with an independent one, and measures it.
//!
//! `harness compare [--seed N] [--count N]` prints `N passed, M failed` as its last line.
//! `harness bench` prints times, beside libfec's with the feature `libfec`.
//! `harness compare-stream [--seed N] [--count N]` and `harness bench-stream` do the same for
//! the bit stream, where the archive `libstream_c.a` was there when the harness was built.
//! `harness compare-encode [--seed N] [--count N]` and `harness bench-encode` do so for the
//! maker, where `libaztec_c.a` defined `aztec_encode` when the harness was built.
//! `harness compare-decode [--seed N] [--count N]` and `harness bench-decode` do so for the
//! reader, where `libaztec_c.a` defined `aztec_decode` when the harness was built.
//! `harness compare-listing PROGRAM [--seed N] [--count N]` and `harness bench-listing PROGRAM`
//! run the print run's program; `harness own-listing [FILE]` lists by the harness's own maker.
//! `harness draw-list FOLDER [--own]` draws 300 symbols for another reader.
//! `harness draw-timed FOLDER` draws the symbols that the programs in `peers/` are timed on.
//! `harness bench-revisions` times and compares the library with another revision's, where it was
//! built with the feature `revisions`, as `scripts/compare_revisions.py` does.
//! `harness stack` measures the stack that each entry takes, and fails where it is more than the
//! header states.
//! `harness soak SECONDS [--seed N]` compares corrector, maker and reader for a time, with a
//! fresh seed unless one is given.

mod bench;
mod cases;
mod compare;
mod decode;
mod encode;
mod field;
mod guard;
mod listing;
mod peer;
mod random;
mod reader;
mod reference;
#[cfg(feature = "revisions")]
mod revisions;
mod soak;
mod stack;
mod stream;
mod symbol;
mod times;

use std::process::ExitCode;

const USAGE: &str = "usage: harness compare [--seed N] [--count N] | harness bench
       harness compare-stream [--seed N] [--count N] | harness bench-stream
       harness compare-encode [--seed N] [--count N] | harness bench-encode
       harness compare-decode [--seed N] [--count N] | harness bench-decode
       harness compare-listing PROGRAM [--seed N] [--count N] | harness bench-listing PROGRAM
       harness own-listing [FILE] | harness draw-list FOLDER [--own]
       harness draw-timed FOLDER | harness soak SECONDS [--seed N]
       harness stack | harness bench-revisions";
const SEED: u64 = 24_778;

/// How many cases by chance, where `--count` doesn't say: blocks or messages for the corrector
/// and the stream, messages for the maker, damaged symbols for the reader, files for the print
/// run.
const COUNT: usize = 20_000;
const ENCODE_COUNT: usize = 6_000;
const DECODE_COUNT: usize = 3_000;
const LISTING_COUNT: usize = 200;

fn main() -> ExitCode {
    let arguments: Vec<String> = std::env::args().skip(1).collect();
    let words: Vec<&str> = arguments.iter().map(String::as_str).collect();
    match words.as_slice() {
        ["bench"] => bench::run(),
        ["compare", options @ ..] => with_options(options, COUNT, compare::run),
        ["bench-stream"] => bench_stream(),
        ["compare-stream", options @ ..] => with_options(options, COUNT, compare_stream),
        ["bench-encode"] => encode::bench::run(),
        ["compare-encode", options @ ..] => {
            with_options(options, ENCODE_COUNT, encode::compare::run)
        }
        ["bench-decode"] => decode::bench::run(),
        ["compare-decode", options @ ..] => {
            with_options(options, DECODE_COUNT, decode::compare::run)
        }
        ["bench-listing", program] => listing::bench::run(program),
        ["compare-listing", program, options @ ..] => {
            with_options(options, LISTING_COUNT, |seed, count| {
                listing::compare::run(program, seed, count)
            })
        }
        ["own-listing"] => listing::own::run(None),
        ["own-listing", file] => listing::own::run(Some(file)),
        ["draw-list", folder] => encode::draw::run(folder, false),
        ["draw-list", folder, "--own"] => encode::draw::run(folder, true),
        ["draw-timed", folder] => encode::timed::run(folder),
        ["bench-revisions"] => bench_revisions(),
        ["stack"] => stack::run(),
        ["soak", seconds] => soaked(seconds, None),
        ["soak", seconds, "--seed", seed] => soaked(seconds, Some(seed)),
        _ => usage(),
    }
}

fn soaked(seconds: &str, seed: Option<&str>) -> ExitCode {
    match (seconds.parse(), seed.map(str::parse).transpose()) {
        (Ok(seconds), Ok(seed)) => soak::run(seconds, seed),
        _ => usage(),
    }
}

#[cfg(stream_c)]
use stream::{bench::run as bench_stream, compare::run as compare_stream};

#[cfg(not(stream_c))]
fn bench_stream() -> ExitCode {
    eprintln!("built without libstream_c.a: the archive was missing");
    ExitCode::from(2)
}

#[cfg(not(stream_c))]
fn compare_stream(_seed: u64, _count: usize) -> ExitCode {
    bench_stream()
}

#[cfg(feature = "revisions")]
use revisions::run as bench_revisions;

#[cfg(not(feature = "revisions"))]
fn bench_revisions() -> ExitCode {
    eprintln!("built without another revision: scripts/compare_revisions.py builds one with it");
    ExitCode::from(2)
}

fn usage() -> ExitCode {
    eprintln!("{USAGE}");
    ExitCode::from(2)
}

/// Runs a comparison with the seed and count that the options give.
fn with_options(
    options: &[&str],
    count: usize,
    compare: impl FnOnce(u64, usize) -> ExitCode,
) -> ExitCode {
    match parsed(options, count) {
        Some((seed, count)) => compare(seed, count),
        None => usage(),
    }
}

/// Seed and count from `--seed N` and `--count N`, in any order.
fn parsed(options: &[&str], mut count: usize) -> Option<(u64, usize)> {
    let mut seed = SEED;
    for pair in options.chunks(2) {
        match pair {
            ["--seed", number] => seed = number.parse().ok()?,
            ["--count", number] => count = number.parse().ok()?,
            _ => return None,
        }
    }
    Some((seed, count))
}
