//! Two libraries put to the same calls in turns.

use super::Library;
use crate::times::{Times, A_RUN, RUNS};
use std::time::Instant;

/// Where one run takes this many seconds or more, there are only so many.
const LONG: f64 = 0.5;
const FEW: usize = 3;

pub struct Both {
    pub before: Library,
    pub now: Library,
}

/// What one call answered, or should.
#[derive(Clone, PartialEq)]
pub struct Answer {
    /// The number, and whatever else comes back that every revision has.
    pub fields: Vec<u32>,
    /// What then stands in the buffer that was lent.
    pub buffer: Vec<u16>,
}

/// Calls that either library can be put to. Both get the same buffers, so that no address
/// favours one.
pub trait Job {
    /// Puts back what stood in the buffers.
    fn reset(&mut self);
    /// Makes each call once.
    fn once(&mut self, library: &Library);
    /// What each call answered last.
    fn answers(&self) -> Vec<Answer>;
    /// What is due for each, where that is known.
    fn due(&self) -> Vec<Option<Answer>>;
}

/// Seconds a call, by each, over all runs.
pub struct Outcome {
    pub before: Times,
    pub now: Times,
    pub libfec: Option<Times>,
    /// now/before of each turn.
    pub ratios: Vec<f64>,
    /// The first, in what was answered.
    pub difference: Option<String>,
}

/// Seconds of one run of each, and how their answers differ.
struct Turn {
    before: f64,
    now: f64,
    difference: Option<String>,
}

impl Outcome {
    /// Before the first turn.
    const NONE: Outcome = Outcome {
        before: Times::NONE,
        now: Times::NONE,
        libfec: None,
        ratios: Vec::new(),
        difference: None,
    };

    fn take(&mut self, turn: Turn, libfec: Option<f64>, calls: usize) {
        let each = |seconds: f64| seconds / calls as f64;
        self.before = self.before.with(each(turn.before));
        self.now = self.now.with(each(turn.now));
        if let Some(seconds) = libfec {
            let so_far = self.libfec.unwrap_or(Times::NONE);
            self.libfec = Some(so_far.with(each(seconds)));
        }
        self.ratios.push(turn.now / turn.before);
        self.difference = self.difference.take().or(turn.difference);
    }
}

impl Both {
    /// Runs of both in turns, and of libfec where it is there: `peer` answers the seconds that so
    /// many rounds took.
    pub fn timed(&self, job: &mut impl Job, mut peer: impl FnMut(usize) -> Option<f64>) -> Outcome {
        let (rounds, runs) = counts(job, &self.before);
        let calls = rounds * job.answers().len();
        // A round of each, untimed: its buffers are fresh, while the later rounds of a run find
        // the answer of the one before.
        let mut outcome = Outcome {
            difference: self.turn(job, 1, false).difference,
            ..Outcome::NONE
        };
        for i in 0..runs {
            let turn = self.turn(job, rounds, i % 2 == 1);
            outcome.take(turn, peer(rounds), calls);
        }
        outcome
    }

    /// A run of each. Who begins goes with the turn, so that neither always comes after libfec.
    fn turn(&self, job: &mut impl Job, rounds: usize, now_first: bool) -> Turn {
        let mut by = |library| (run(job, library, rounds), job.answers());
        let (before, now);
        if now_first {
            now = by(&self.now);
            before = by(&self.before);
        } else {
            before = by(&self.before);
            now = by(&self.now);
        }
        Turn {
            before: before.0,
            now: now.0,
            difference: difference(&before.1, &now.1, &job.due()),
        }
    }
}

/// Seconds of a run, from fresh buffers on.
fn run(job: &mut impl Job, library: &Library, rounds: usize) -> f64 {
    job.reset();
    let start = Instant::now();
    for _ in 0..rounds {
        job.once(library);
    }
    start.elapsed().as_secs_f64()
}

/// How many rounds fill a run, and how many runs there are.
fn counts(job: &mut impl Job, library: &Library) -> (usize, usize) {
    let mut rounds = 1;
    loop {
        let seconds = run(job, library, rounds);
        if seconds >= LONG {
            return (rounds, FEW);
        }
        if seconds >= A_RUN * 0.7 {
            return (rounds, RUNS);
        }
        rounds *= 2;
    }
}

/// The first call that two of the three (before, now, due) have different answers for.
fn difference(before: &[Answer], now: &[Answer], due: &[Option<Answer>]) -> Option<String> {
    let calls = before.iter().zip(now).zip(due).enumerate();
    let mut found = calls.filter_map(|(place, ((before, now), due))| {
        let due = due.as_ref();
        let pairs = [
            unlike(("before", before), ("now", now)),
            due.and_then(|due| unlike(("before", before), ("due", due))),
            due.and_then(|due| unlike(("now", now), ("due", due))),
        ];
        let told: Vec<String> = pairs.into_iter().flatten().collect();
        (!told.is_empty()).then(|| format!("call {place}: {}", told.join("; ")))
    });
    found.next()
}

fn unlike((one, a): (&str, &Answer), (other, b): (&str, &Answer)) -> Option<String> {
    if a.fields != b.fields {
        return Some(format!("{one} {:?}, {other} {:?}", a.fields, b.fields));
    }
    let mut places = a.buffer.iter().zip(&b.buffer);
    let place = places.position(|(a, b)| a != b)?;
    let (a, b) = (a.buffer[place], b.buffer[place]);
    Some(format!("{one} {a}, {other} {b} at place {place}"))
}
