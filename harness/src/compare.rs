//! Runs every case against the library and counts.

use crate::cases::{self, Case};
use crate::field::{Field, SIZES};
use crate::guard::differences;
use crate::random::Random;
use crate::reference::{
    filled, nearest, search, searchable, syndromes, unlawful, valid, Answer, Maker,
};
use std::collections::BTreeMap;
use std::process::ExitCode;

/// Differences told in full.
const TOLD: usize = 10;

/// The stack that a caller's thread may have, and a call has to be content with.
const SMALL_STACK: usize = 256 * 1024;

#[derive(Default)]
pub struct Tally {
    pub passed: usize,
    pub failed: usize,
    /// How often each number was due.
    pub numbers: BTreeMap<u32, usize>,
    /// Cases of each label.
    labels: BTreeMap<&'static str, usize>,
}

pub fn run(seed: u64, count: usize) -> ExitCode {
    let mut tally = Tally::default();
    for fault in own_faults(seed) {
        tally.fail(&format!("the harness itself: {fault}"));
    }
    cases::all(seed, count, &mut |case| tally.case(&case));
    // Last, since a stack that is too small ends the program.
    let case = cases::large::largest(&mut Random::new(seed ^ 3));
    let due = tally.due(&case);
    let list = on_small_stack(|| differences(&case.call, &due, 1));
    tally.count_case(&case, &due, list);
    tally.report(seed)
}

impl Tally {
    pub fn fail(&mut self, what: &str) {
        self.failed += 1;
        if self.failed <= TOLD {
            eprintln!("{what}");
        }
    }

    /// Counts a case of a label with the number that is due; `list` is what was unlike it.
    pub fn count(
        &mut self,
        label: &'static str,
        number: u32,
        list: Vec<String>,
        told: impl FnOnce() -> String,
    ) {
        *self.labels.entry(label).or_default() += 1;
        *self.numbers.entry(number).or_default() += 1;
        if list.is_empty() {
            self.passed += 1;
            return;
        }
        self.fail(&format!("{}: {}", told(), list.join("; ")));
    }

    /// One call of the library's corrector.
    pub fn case(&mut self, case: &Case) {
        let due = self.due(case);
        let turn = self.passed + self.failed;
        let list = differences(&case.call, &due, turn);
        self.count_case(case, &due, list);
    }

    fn count_case(&mut self, case: &Case, due: &Answer, list: Vec<String>) {
        let number = due.as_ref().err().copied().unwrap_or(0);
        self.count(case.label, number, list, || told(case));
    }

    /// The answer due. Where several ways lead to it, they have to agree, or the harness
    /// itself has failed.
    fn due(&mut self, case: &Case) -> Answer {
        let mut answers: Vec<Answer> = case.known.iter().cloned().collect();
        match unlawful(&case.call) {
            Some(number) => answers.push(Err(number)),
            None => lawful_answers(case, &mut answers),
        }
        if answers.iter().any(|answer| *answer != answers[0]) {
            self.fail(&format!(
                "the harness itself: two answers to {}",
                told(case)
            ));
        }
        answers.swap_remove(0)
    }

    pub fn report(&self, seed: u64) -> ExitCode {
        println!("seed {seed}");
        for (label, count) in &self.labels {
            println!("{count:>7}  {label}");
        }
        let numbers = self.numbers.iter();
        let numbers: Vec<String> = numbers.map(|(n, count)| format!("{n} {count}x")).collect();
        println!("numbers due: {}", numbers.join(", "));
        println!("{} passed, {} failed", self.passed, self.failed);
        ExitCode::from(u8::from(self.failed > 0))
    }
}

/// Adds what exhaustive search and elimination answer, where they are cheap, and at least
/// one answer in all.
fn lawful_answers(case: &Case, answers: &mut Vec<Answer>) {
    let call = &case.call;
    let field = Field::of(call.word_size).expect("a lawful size");
    let (n, k) = (call.received.len(), call.check_words);
    if searchable(call.word_size, n, k) {
        let blocks = search(field, k, &call.received, &call.marks);
        // Were there two, they would be two answers.
        let found: Vec<Answer> = blocks.into_iter().map(Ok).collect();
        answers.extend(if found.is_empty() {
            vec![Err(34)]
        } else {
            found
        });
    }
    if answers.is_empty() || cheap(n, k) {
        answers.push(nearest(field, k, &call.received, &call.marks).ok_or(34));
    }
}

/// Whether elimination is worth its time beside another way.
fn cheap(n: usize, k: usize) -> bool {
    n * k + (k / 2).pow(3) / 3 < 60_000_000
}

/// A case in one line.
fn told(case: &Case) -> String {
    let call = &case.call;
    let marked = call.marks.iter().filter(|&&mark| mark == 1).count();
    let lengths = (call.received.len(), call.marks.len(), call.corrected_len);
    let mut text = format!(
        "{} (B {}, K {}, lengths {lengths:?}, {marked} marked)",
        case.label, call.word_size, call.check_words
    );
    if call.received.len() <= 20 {
        text += &format!(" {:?} {:?}", call.received, call.marks);
    }
    text
}

/// Does some work on a thread with the small stack.
pub fn on_small_stack<T: Send>(work: impl FnOnce() -> T + Send) -> T {
    std::thread::scope(|scope| {
        std::thread::Builder::new()
            .stack_size(SMALL_STACK)
            .spawn_scoped(scope, work)
            .expect("a thread can be started")
            .join()
            .expect("the thread comes back")
    })
}

/// What the harness builds on, tested before it judges another: the fields, the two ways to
/// make check words, and that long division reaches every valid block.
fn own_faults(seed: u64) -> Vec<String> {
    let mut faults = Vec::new();
    let mut random = Random::new(seed ^ 4);
    for bits in SIZES {
        let field = Field::of(bits).expect("a listed size");
        if field.faults() > 0 {
            faults.push(format!("the field of {bits} bits"));
        }
        for _ in 0..50 {
            let n = random.within(2, field.order().min(200));
            let k = random.within(1, n - 1);
            let mut block = Maker::new(field, k).block(&random.words(bits, n - k));
            let same = valid(field, &block, k);
            let made = block.clone();
            block[n - k..].fill(0);
            let sums = syndromes(field, &block, k);
            let places: Vec<usize> = (n - k..n).collect();
            if !same || filled(field, &block, &places, &sums) != made {
                faults.push(format!("check words, B {bits}, n {n}, K {k}"));
            }
        }
    }
    let field = Field::of(4).expect("a listed size");
    for (n, k) in [(2, 1), (3, 1), (3, 2), (4, 1), (4, 2), (4, 3)] {
        let word = |choice: usize, i: usize| (choice >> (4 * i) & 15) as u16;
        let blocks = (0..1 << (4 * n)).map(|c| (0..n).map(|i| word(c, i)).collect::<Vec<_>>());
        if blocks.filter(|block| valid(field, block, k)).count() != 1 << (4 * (n - k)) {
            faults.push(format!("the number of valid blocks, n {n}, K {k}"));
        }
    }
    faults
}
