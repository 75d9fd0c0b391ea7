//! How much stack each entry takes. Its calls are made on a thread whose stack was painted
//! before: how deep the paint is gone is what they took. `include/aztec.h` states the need of
//! each entry; where a call takes more, this fails. All calls are then made once more with no
//! memory below what is stated, since a page can be touched without being changed.

mod calls;
mod painted;

use self::calls::{all, Call};
use self::painted::Painted;
use std::process::ExitCode;

/// The entries, with the header's names for their needs.
const ENTRIES: [(&str, &str); 3] = [
    ("aztec_correct", "AZTEC_CORRECT_STACK"),
    ("aztec_encode", "AZTEC_ENCODE_STACK"),
    ("aztec_decode", "AZTEC_DECODE_STACK"),
];

const HEADER: &str = include_str!("../../include/aztec.h");

pub fn run() -> ExitCode {
    let mut calls = all();
    let mut failed = 0;
    for (entry, name) in ENTRIES {
        let calls = calls.iter_mut().filter(|call| call.entry == entry);
        let calls: Vec<&mut Call> = calls.collect();
        failed += usize::from(!is_content(entry, calls, stated(name)));
    }
    println!("{} passed, {failed} failed", ENTRIES.len() - failed);
    ExitCode::from(u8::from(failed > 0))
}

/// The number that the header defines under a name.
fn stated(name: &str) -> usize {
    let line = HEADER
        .lines()
        .find_map(|line| line.strip_prefix("#define ")?.strip_prefix(name));
    let number = line.and_then(|rest| rest.split_whitespace().next());
    number
        .and_then(|text| text.parse().ok())
        .expect("the header states the need")
}

/// Whether an entry's calls take no more than is stated.
fn is_content(entry: &str, mut calls: Vec<&mut Call>, stated: usize) -> bool {
    let mut stack = Painted::new();
    let taken = calls.iter_mut().map(|call| stack.taken_by(&mut *call.make));
    let most = taken.enumerate().max_by_key(|&(_, taken)| taken);
    let (place, taken) = most.expect("an entry has calls");
    let (count, title) = (calls.len(), &calls[place].title);
    println!("{entry}: {taken} bytes, the most of {count} calls ({title}); stated {stated}");
    if taken > stated {
        return false;
    }
    // Here a call that touches more ends the program, and so fails too.
    for call in &mut calls {
        stack.confine(&mut *call.make, stated);
    }
    true
}
