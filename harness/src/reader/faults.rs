//! The reader against everything that the papers print of it, and against the maker.

use super::sampled::Sampled;
use super::steps::STEPS;
use super::{read, Read, Reading};
use crate::stream::words_of;
use crate::symbol::core::{self, ORIENTATION};
use crate::symbol::faults::ANNEX_G;
use crate::symbol::position::{moved, placed, POSITIONS};
use crate::symbol::shape::{self, Family, Shape};
use crate::symbol::{fit, Fit};

/// What is not as printed.
pub fn all() -> Vec<String> {
    let mut faults = Vec::new();
    let mut hold = |holds: bool, what: &str| {
        if !holds {
            faults.push(what.to_string());
        }
    };
    hold(geometry_is_sound(), "the positions");
    hold(
        patterns_differ(),
        "orientation patterns that differ in 4, 6 or 8",
    );
    hold(annex_g_is_read(), "annex G's symbol");
    hold(bench_is_read(), "the tags on the bench");
    hold(light_blocks(), "blocks of light modules only");
    hold(tie_is_refused(), "two positions with 10 matches");
    for shape in shape::every() {
        let name = shape.name();
        hold(
            reads_back(shape),
            &format!("{name} read back in eight positions"),
        );
    }
    faults
}

/// A symbol of a shape with these data words.
fn drawn(shape: Shape, data: &[u16]) -> Vec<u8> {
    let data = data.to_vec();
    Fit { shape, data }.modules()
}

fn clean(message: &[u8], shape: Shape, position: usize) -> Reading {
    Ok(Read {
        message: message.to_vec(),
        shape,
        position,
        unread: 0,
        wrong: 0,
    })
}

/// In every position each module stands where rows and columns put it.
fn geometry_is_sound() -> bool {
    let side = 15;
    let numbers: Vec<u8> = (0..225).collect();
    (0..POSITIONS).all(|position| {
        let there = moved(&numbers, side, position);
        let index = |offset| core::index(offset, side);
        core::square(7)
            .all(|offset| there[index(placed(offset, position))] == numbers[index(offset)])
    })
}

/// "two positions can differ in only 4 modules": 4, 6 or 8 are all that occur.
fn patterns_differ() -> bool {
    let shape = Shape::compact(1);
    let made = drawn(shape, &[5]);
    let grids: Vec<Vec<u8>> = (0..POSITIONS).map(|p| moved(&made, 15, p)).collect();
    let apart = |p: usize, q: usize| {
        let grid = Sampled::new(&grids[p], 15).expect("a lawful grid");
        12 - grid.matches(Family::Compact, q)
    };
    (0..POSITIONS).all(|p| {
        (0..POSITIONS).all(|q| match p == q {
            true => apart(p, q) == 0,
            false => [4, 6, 8].contains(&apart(p, q)),
        })
    })
}

fn annex_g_is_read() -> bool {
    let shape = Shape::compact(1);
    let modules = drawn(shape, &ANNEX_G);
    read(&modules, 15) == clean(b"Code 2D!", shape, 0)
}

fn bench_is_read() -> bool {
    let tags: [(&[u8], u32); 7] = [
        (b"A", 23),
        (b"POT", 23),
        (b"12", 23),
        (b"aB", 23),
        (b"\0", 23),
        (b"A", 95),
        (b"POT 0412", 23),
    ];
    tags.iter().all(|&(message, percent)| {
        fit(message, percent).is_ok_and(|fit| {
            let side = fit.shape.side() as u32;
            read(&fit.modules(), side) == clean(message, fit.shape, 0)
        })
    })
}

/// C1 with nine data words, all modules of the block light: nine marked words are more than
/// K 8, so 17. With three data words the block of zeros is found, and gives 18.
fn light_blocks() -> bool {
    [(9, 17), (8, 18), (3, 18)]
        .iter()
        .all(|&(data_words, number)| {
            let modules = drawn(Shape::compact(1), &vec![0; data_words]);
            read(&modules, 15) == Err(number)
        })
}

/// With two orientation modules turned, the made position has ten matches. Where another has
/// ten too, "so two may qualify", neither is taken; else the made one is.
fn tie_is_refused() -> bool {
    let made = drawn(Shape::compact(1), &[5]);
    let offsets = core::orientation(Family::Compact);
    let spoilt = |places: &[usize]| {
        let mut modules = made.clone();
        for &place in places {
            modules[core::index(offsets[place], 15)] = 1 - ORIENTATION[place];
        }
        let grid = Sampled::new(&modules, 15).expect("a lawful grid");
        let matches = (0..POSITIONS).map(|p| grid.matches(Family::Compact, p));
        let position = (STEPS.position)(&grid, Family::Compact);
        (matches.collect::<Vec<_>>(), position)
    };
    let pairs = (0..12).flat_map(|a| (a + 1..12).map(move |b| [a, b]));
    let mut tied = 0;
    for pair in pairs {
        let (matches, position) = spoilt(&pair);
        let ties = matches[1..].contains(&10);
        tied += usize::from(ties);
        if position != (!ties).then_some(0) {
            return false;
        }
    }
    tied > 0
}

/// Letters in more than half of the words, drawn and read in every position.
fn reads_back(shape: Shape) -> bool {
    let most = shape.either(64, shape.words() - 3).min(shape.words() - 3);
    let size = shape.word_size();
    // Five bits a letter, and no stuffed bit.
    let message = vec![b'K'; most * size as usize / 8];
    let made = drawn(shape, &words_of(&message, size));
    (0..POSITIONS).all(|position| {
        let grid = moved(&made, shape.side(), position);
        read(&grid, shape.side() as u32) == clean(&message, shape, position)
    })
}
