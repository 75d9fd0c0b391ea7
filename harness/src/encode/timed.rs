//! Writes the symbols that library and peers are timed on, for the programs in `peers/`.

use super::draw;
use crate::cases::timed::{self, Timed, PERCENT};
use crate::symbol::shape::Family;
use std::fs;
use std::io;
use std::path::Path;
use std::process::ExitCode;

/// Writes `NAME.pbm` and `NAME.bytes` for each, and `list.txt`, a line for each; all by the
/// harness's own maker.
pub fn run(folder: &str) -> ExitCode {
    draw::ended(folder, written(Path::new(folder)))
}

fn written(folder: &Path) -> io::Result<usize> {
    fs::create_dir_all(folder)?;
    let list = timed::all();
    for case in &list {
        let file = |ending: &str| folder.join(format!("{}.{ending}", case.name));
        let image = bitmap(&case.sheet.modules, case.sheet.shape.side());
        fs::write(file("pbm"), image)?;
        fs::write(file("bytes"), &case.message)?;
    }
    let lines: String = list.iter().map(line).collect();
    fs::write(folder.join("list.txt"), lines)?;
    Ok(list.len())
}

/// Name, percentage, whether compact, layers, data words, wrong words: bare numbers, for
/// programs in four languages.
fn line(case: &Timed) -> String {
    let sheet = &case.sheet;
    let compact = u8::from(sheet.shape.family == Family::Compact);
    let (layers, data_words) = (sheet.shape.layers, sheet.data_words);
    let (name, wrong) = (&case.name, case.wrong);
    format!("{name} {PERCENT} {compact} {layers} {data_words} {wrong}\n")
}

/// A portable bitmap (PBM): a pixel a module, without a border, 1 for dark.
fn bitmap(modules: &[u8], side: usize) -> String {
    let digits = |row: &[u8]| row.iter().map(|module| module.to_string()).collect();
    let rows: Vec<String> = modules.chunks(side).map(digits).collect();
    format!("P1\n{side} {side}\n{}\n", rows.join("\n"))
}
