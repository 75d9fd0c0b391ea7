//! The outcomes as tables for a Markdown document, and what was answered otherwise.

use super::turns::Outcome;
use crate::times::{Times, RUNS};

/// What a time is told in: its name, and how many of it are a second a call.
#[derive(Clone, Copy)]
pub struct Unit(&'static str, f64);

impl Unit {
    pub const HUNDRED: Unit = Unit("ms per hundred", 1e5);
    pub const MILLI: Unit = Unit("ms", 1e3);
    pub const MICRO: Unit = Unit("µs", 1e6);
    pub const NANO: Unit = Unit("ns", 1e9);

    /// Nanoseconds below a microsecond, else microseconds.
    pub fn of(outcome: &Outcome) -> Unit {
        match outcome.before.fast < 1e-6 {
            true => Unit::NANO,
            false => Unit::MICRO,
        }
    }

    fn span(self, times: Times) -> String {
        let [fast, slow] = [times.fast, times.slow].map(|seconds| self.told(seconds));
        format!("{fast} to {slow}")
    }

    /// Three figures, or whole numbers where those have more.
    fn told(self, seconds: f64) -> String {
        let number = seconds * self.1;
        let decimals = match number {
            1000.0.. => return in_thousands(number),
            100.0.. => 0,
            10.0.. => 1,
            1.0.. => 2,
            _ => 3,
        };
        format!("{number:.decimals$}")
    }
}

fn in_thousands(number: f64) -> String {
    let whole = number.round() as u64;
    format!("{},{:03}", whole / 1_000, whole % 1_000)
}

fn median(list: &[f64]) -> f64 {
    let mut list = list.to_vec();
    list.sort_by(f64::total_cmp);
    list[list.len() / 2]
}

#[derive(Default)]
pub struct Table {
    /// The table's title.
    title: &'static str,
    /// Printed behind the tables.
    notes: Vec<String>,
    different: usize,
}

impl Table {
    /// A new table, with libfec's columns or without.
    pub fn begin(&mut self, title: &'static str, libfec: bool) {
        self.title = title;
        let mut head = vec!["unit", "before", "now", "now/before", "median"];
        if libfec {
            head.extend(["libfec", "now/libfec"]);
        }
        println!("\n| {title} | {} |", head.join(" | "));
        println!("|{}", "---|".repeat(head.len() + 1));
    }

    pub fn row(&mut self, title: &str, unit: Unit, outcome: &Outcome) {
        let Outcome { before, now, .. } = *outcome;
        let runs = match outcome.ratios.len() {
            RUNS => String::new(),
            runs => format!(" ({runs} runs)"),
        };
        let spans = [unit.span(before), unit.span(now)].join(" | ");
        let (ratio, median) = (now.fast / before.fast, median(&outcome.ratios));
        print!(
            "| {title}{runs} | {} | {spans} | {ratio:.2} | {median:.2} |",
            unit.0
        );
        if let Some(libfec) = outcome.libfec {
            let ratio = now.fast / libfec.fast;
            print!(" {} | {ratio:.2} |", unit.span(libfec));
        }
        println!();
        if let Some(what) = &outcome.difference {
            self.different += 1;
            self.note(&format!("{title}, answered otherwise, {what}"));
        }
    }

    pub fn note(&mut self, what: &str) {
        self.notes.push(format!("{}, {what}", self.title));
    }

    /// The slowest of now over the fastest of the others.
    pub fn extremes(&self, title: &str, unit: Unit, outcome: &Outcome) {
        let slow = outcome.now.slow;
        let others = [("before", Some(outcome.before)), ("libfec", outcome.libfec)];
        println!();
        for (name, times) in others {
            let Some(Times { fast, .. }) = times else {
                continue;
            };
            let (ratio, fast, slow) = (slow / fast, unit.told(fast), unit.told(slow));
            let what = format!("slowest now {slow} / fastest {name} {fast} {}", unit.0);
            println!("- {title}: {what}: {ratio:.2}");
        }
    }

    /// Prints the notes; whether all that was answered was the same and as due.
    pub fn ended(self) -> bool {
        println!();
        for note in &self.notes {
            println!("{note}");
        }
        match self.different {
            0 => println!("every answer is the other's, and what was due"),
            cases => println!("{cases} cases answered otherwise"),
        }
        self.different == 0
    }
}
