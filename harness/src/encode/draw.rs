//! Draws a fixed list of symbols as image files, with the message beside each.

use super::calls::{encoded, library, Due, Encode};
use crate::cases::drawings;
use crate::cases::tags::Tag;
use crate::symbol::shape::{self, Shape};
use std::fs;
use std::io;
use std::path::Path;
use std::process::ExitCode;

/// Modules of the largest symbol.
const MOST: usize = 151 * 151;

/// Pixels of a module's side, and modules of the light border.
const SCALE: usize = 4;
const BORDER: usize = 4;

const DARK: u8 = 0;
const LIGHT: u8 = 255;

/// Writes `001.pgm` and `001.bytes` and so on, and `list.txt`, a line for each; by the
/// library's maker, or by the harness's own.
pub fn run(folder: &str, own: bool) -> ExitCode {
    let maker = if own { None } else { library() };
    if !own && maker.is_none() {
        eprintln!("built without aztec_encode: libaztec_c.a doesn't define it (--own draws)");
        return ExitCode::from(2);
    }
    ended(folder, drawn(Path::new(folder), maker))
}

/// Says how many symbols were written to a folder, or what went wrong.
pub fn ended(folder: &str, written: io::Result<usize>) -> ExitCode {
    match written {
        Ok(count) => {
            println!("{count} symbols in {folder}");
            ExitCode::SUCCESS
        }
        Err(fault) => {
            eprintln!("{folder}: {fault}");
            ExitCode::FAILURE
        }
    }
}

fn drawn(folder: &Path, maker: Option<Encode>) -> io::Result<usize> {
    fs::create_dir_all(folder)?;
    let list = drawings::all();
    let mut lines = String::new();
    for (i, tag) in list.iter().enumerate() {
        let name = format!("{:03}", i + 1);
        let (shape, modules) =
            symbol(tag, maker).map_err(|fault| io::Error::other(format!("{name}: {fault}")))?;
        let image = image(&modules, shape.side());
        fs::write(folder.join(format!("{name}.pgm")), image)?;
        fs::write(folder.join(format!("{name}.bytes")), &tag.message)?;
        lines += &format!("{name} {}\n", told(tag, shape));
    }
    fs::write(folder.join("list.txt"), lines)?;
    Ok(list.len())
}

fn told(tag: &Tag, shape: Shape) -> String {
    let (number, side) = (shape.number(), shape.side());
    let (percent, len) = (tag.percent, tag.message.len());
    let label = tag.label;
    format!("shape {number}, side {side}, {percent} percent, {len} bytes: {label}")
}

/// The shape and its modules, by the given maker or else by the harness's own.
fn symbol(tag: &Tag, maker: Option<Encode>) -> Result<(Shape, Vec<u8>), String> {
    let mut grid = vec![0; MOST];
    let answer = match maker {
        Some(encode) => encoded(encode, &tag.message, tag.percent, &mut grid),
        None => {
            let due = Due::of(&tag.message, tag.percent);
            grid[..due.modules.len()].copy_from_slice(&due.modules);
            due.answer(MOST)
        }
    };
    let named = |shape: &Shape| shape.number() == answer.shape as usize;
    let Some(shape) = shape::listed().find(named) else {
        return Err(format!("the maker answered {answer:?}"));
    };
    grid.truncate(shape.side().pow(2));
    Ok((shape, grid))
}

/// A grey map (PGM).
fn image(modules: &[u8], side: usize) -> Vec<u8> {
    let pixels = (side + 2 * BORDER) * SCALE;
    let mut bytes = format!("P5\n{pixels} {pixels}\n255\n").into_bytes();
    // The module a row or column of pixels belongs to; none on the border.
    let module = |pixel: usize| (pixel / SCALE).checked_sub(BORDER).filter(|&i| i < side);
    for row in 0..pixels {
        bytes.extend((0..pixels).map(|column| {
            let dark = module(row)
                .zip(module(column))
                .is_some_and(|(y, x)| modules[y * side + x] == 1);
            if dark {
                DARK
            } else {
                LIGHT
            }
        }));
    }
    bytes
}
