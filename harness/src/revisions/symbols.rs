//! The reader's grids and the maker's messages.

use super::refused::{self, Refused};
use super::table::{Table, Unit};
use super::turns::{Answer, Both, Job};
use super::Library;
use crate::cases::kinds::mixed;
use crate::cases::timed::{self, longest, Timed, PERCENT};
use crate::decode::calls::{decoded, refusal, Decoded};
use crate::decode::compare::AMPLE;
use crate::encode::calls::{encoded, Due, Encoded};
use crate::guard::untouched_bytes;
use crate::symbol::shape;
use std::hint::black_box;

/// The symbols that library and peers are timed on.
pub fn read(both: &Both, table: &mut Table) {
    table.begin("Reader", false);
    for case in timed::all() {
        let outcome = both.timed(&mut Reading::answered(&case), |_| None);
        table.row(&case.name, Unit::MICRO, &outcome);
    }
}

/// Grids that come back with each of the reader's numbers.
pub fn refused(both: &Both, table: &mut Table) {
    table.begin("Reader, refused", false);
    for case in refused::all() {
        let outcome = both.timed(&mut Reading::refused(&case), |_| None);
        table.row(&case.title, Unit::of(&outcome), &outcome);
    }
}

/// Every shape that the maker uses, as full of mixed text as 23 percent allow.
pub fn made(both: &Both, table: &mut Table) {
    table.begin("Maker", false);
    let text = mixed(5_000);
    for shape in shape::listed() {
        let message = longest(&text, PERCENT, shape.number());
        let due = Due::of(message, PERCENT);
        let mut job = Making {
            message,
            grid: vec![0; due.modules.len()],
            due,
            answer: Encoded::default(),
        };
        let outcome = both.timed(&mut job, |_| None);
        let title = format!("{}, {} bytes", shape.name(), message.len());
        table.row(&title, Unit::MICRO, &outcome);
    }
}

fn widened(bytes: &[u8]) -> Vec<u16> {
    bytes.iter().copied().map(u16::from).collect()
}

struct Reading<'a> {
    modules: &'a [u8],
    side: u32,
    message: Vec<u8>,
    answer: Decoded,
    due: Answer,
}

impl Reading<'_> {
    fn answered(case: &Timed) -> Reading<'_> {
        let Timed { message, sheet, .. } = case;
        let answer = Decoded {
            length: message.len() as u32,
            shape: sheet.shape.number() as u32,
            position: sheet.position as u32,
            wrong: case.wrong as u32,
            ..Decoded::default()
        };
        let mut due = untouched_bytes(AMPLE, 0);
        due[..message.len()].copy_from_slice(message);
        Reading::new(&sheet.modules, sheet.shape.side() as u32, &answer, due)
    }

    fn refused(case: &Refused) -> Reading<'_> {
        let due = untouched_bytes(case.room, 0);
        Reading::new(&case.modules, case.side, &refusal(case.number), due)
    }

    /// A grid, and what is due: the answer, and the message buffer.
    fn new<'a>(modules: &'a [u8], side: u32, answer: &Decoded, message: Vec<u8>) -> Reading<'a> {
        Reading {
            modules,
            side,
            due: Answer {
                fields: read_fields(answer),
                buffer: widened(&message),
            },
            message,
            answer: Decoded::default(),
        }
    }
}

impl Job for Reading<'_> {
    fn reset(&mut self) {
        let before = untouched_bytes(self.message.len(), 0);
        self.message.copy_from_slice(&before);
        self.answer = Decoded::default();
    }

    fn once(&mut self, library: &Library) {
        let modules = black_box(self.modules);
        self.answer = decoded(library.decode, modules, self.side, &mut self.message);
    }

    fn answers(&self) -> Vec<Answer> {
        vec![Answer {
            fields: read_fields(&self.answer),
            buffer: widened(&self.message),
        }]
    }

    fn due(&self) -> Vec<Option<Answer>> {
        vec![Some(self.due.clone())]
    }
}

/// What every revision answers; a field that one of them doesn't have stays out.
fn read_fields(answer: &Decoded) -> Vec<u32> {
    let place = [answer.shape, answer.position];
    let words = [answer.unread, answer.wrong];
    [[answer.number, answer.length], place, words].concat()
}

struct Making<'a> {
    message: &'a [u8],
    due: Due,
    grid: Vec<u8>,
    answer: Encoded,
}

impl Job for Making<'_> {
    fn reset(&mut self) {
        let before = untouched_bytes(self.grid.len(), 0);
        self.grid.copy_from_slice(&before);
        self.answer = Encoded::default();
    }

    fn once(&mut self, library: &Library) {
        let message = black_box(self.message);
        self.answer = encoded(library.encode, message, PERCENT, &mut self.grid);
    }

    fn answers(&self) -> Vec<Answer> {
        vec![Answer {
            fields: made_fields(&self.answer),
            buffer: widened(&self.grid),
        }]
    }

    fn due(&self) -> Vec<Option<Answer>> {
        vec![Some(Answer {
            fields: made_fields(&self.due.answer(self.grid.len())),
            buffer: widened(&self.due.modules),
        })]
    }
}

fn made_fields(answer: &Encoded) -> Vec<u32> {
    let words = [answer.data_words, answer.check_words];
    [&[answer.number, answer.shape, answer.side][..], &words].concat()
}
