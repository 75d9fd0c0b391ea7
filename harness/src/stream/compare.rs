//! Runs every message and every block of words against the library and counts.

use super::calls::{counted, judged, written};
use super::read::{reading_of, unstuffed};
use super::{codes, words_of, write, LONGEST, SIZES};
use crate::cases::blocks::{self, Block};
use crate::cases::kinds::{self, Text};
use crate::cases::text;
use crate::compare::{on_small_stack, Tally};
use crate::random::Random;
use std::process::ExitCode;

/// Bytes and words told in full.
const TOLD: usize = 24;

pub fn run(seed: u64, count: usize) -> ExitCode {
    let mut tally = Tally::default();
    for fault in own_faults(seed) {
        tally.fail(&format!("the harness itself: {fault}"));
    }
    text::all(seed, count, &mut |text| {
        for size in SIZES {
            text_case(&mut tally, &text, size);
        }
    });
    too_long(&mut tally);
    blocks::all(seed, count, &mut |block| block_case(&mut tally, &block));
    // Last, since a stack that is too small ends the program.
    small_stack(&mut tally, seed);
    tally.report(seed)
}

/// Count, words in buffers of three lengths, and the words read back.
fn text_case(tally: &mut Tally, text: &Text, size: u32) {
    let turn = tally.passed + tally.failed;
    let message = &text.message;
    let due = words_of(message, size);
    let back = reading_of(&due, size);
    if back.as_ref() != Ok(message) {
        tally.fail(&format!(
            "the harness itself: reading back {}",
            told_text(text, size)
        ));
    }
    let list = text_differences(message, size, &due, turn);
    tally.count(text.label, 0, list, || told_text(text, size));
}

fn text_differences(message: &[u8], size: u32, due: &[u16], turn: usize) -> Vec<String> {
    let len = due.len();
    let mut list = counted(message, size, len, turn);
    // One word short, or a good deal, or no room at all.
    let short = [len - 1, len / 2, 0, turn % len][turn % 4];
    for room in [len, len + 1 + turn % 19, short] {
        list.extend(written(message, size, due, room, turn));
    }
    list.extend(judged(due, size, &Ok(message.to_vec()), turn));
    list
}

/// "4993 for a message of more than 4,992 bytes"; only the count may be asked for.
fn too_long(tally: &mut Tally) {
    for len in [4_993, 4_994, 5_023, 7_968, 9_986, 65_536, 70_000, 1_000_000] {
        for byte in [b'7', b'A', 0, 255] {
            let text = Text {
                label: "a message too long for any shape",
                message: vec![byte; len],
            };
            for size in SIZES {
                let turn = tally.passed + tally.failed;
                let list = counted(&text.message, size, LONGEST + 1, turn);
                tally.count(text.label, 0, list, || told_text(&text, size));
            }
        }
    }
}

fn block_case(tally: &mut Tally, block: &Block) {
    let turn = tally.passed + tally.failed;
    let due = reading_of(&block.words, block.size);
    if block.known.as_ref().is_some_and(|known| *known != due) {
        tally.fail(&format!(
            "the harness itself: two answers to {}",
            told_block(block)
        ));
    }
    let list = judged(&block.words, block.size, &due, turn);
    let number = due.err().map_or(0, |(number, _)| number);
    tally.count(block.label, number, list, || told_block(block));
}

/// Garbage of the greatest length, and the longest stream there is, 19 bits a byte.
fn small_stack(tally: &mut Tally, seed: u64) {
    let mut random = Random::new(seed ^ 6);
    let garbage = (0..LONGEST).map(|_| random.next() as u8).collect();
    let most = b"!\0".repeat(LONGEST / 2);
    for message in [garbage, most] {
        let label = "the longest messages on a stack of 256 KiB";
        let text = Text { label, message };
        let due = words_of(&text.message, 6);
        let list = on_small_stack(|| text_differences(&text.message, 6, &due, 1));
        tally.count(label, 0, list, || told_text(&text, 6));
    }
}

fn told_text(text: &Text, size: u32) -> String {
    let (label, len) = (text.label, text.message.len());
    let start = text.message[..len.min(TOLD)].escape_ascii();
    format!("{label} (B {size}, {len} bytes: {start})")
}

fn told_block(block: &Block) -> String {
    let (label, size, len) = (block.label, block.size, block.words.len());
    let start = &block.words[..len.min(TOLD)];
    format!("{label} (B {size}, {len} words: {start:?})")
}

/// What the harness builds on, tested before it judges another: the table, the printed
/// words, the classes of bytes, and that unstuffing undoes stuffing up to fewer than B 1s.
fn own_faults(seed: u64) -> Vec<String> {
    let mut faults = Vec::new();
    let tables = codes::faults() + kinds::faults() + write::faults();
    if tables > 0 {
        faults.push(format!("{tables} faults of tables and printed words"));
    }
    let mut random = Random::new(seed ^ 7);
    for i in 0..4_000 {
        let size = SIZES[i % 4];
        // One 0 in many, one 1 in many, or both alike.
        let (one_in, turned) = random.pick(&[(2, false), (12, false), (12, true), (40, true)]);
        let len = random.within(1, 60);
        let bits: Vec<bool> = (0..len).map(|_| random.chance(one_in) != turned).collect();
        let words = write::stuffed(&bits, size);
        let back = unstuffed(&words, size);
        let fill = back.strip_prefix(bits.as_slice());
        let ones = |fill: &[bool]| fill.len() < size as usize && fill.iter().all(|&bit| bit);
        let edge = |&word: &u16| word == 0 || word == (1 << size) - 1;
        if !fill.is_some_and(ones) || words.iter().any(edge) {
            faults.push(format!("stuffing {bits:?} at B {size}"));
        }
    }
    faults
}
