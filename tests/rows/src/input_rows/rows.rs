// One row, and its answer.

use crate::input_rows::faults::write_fault;
use crate::input_rows::files::write_file;
use crate::input_rows::hints::{write_hint, write_meant};
use crate::input_rows::words::write_words;
use std::alloc::Global;
use std::io;

/// Writes what is answered to a row. That of words has a tab before each of them, the others a space behind their first word.
fn write_answer(alloc: Global, text: &mut String, row: &str) -> io::Result<()> {
    if row == "words" || row.starts_with("words\t") {
        return write_words(alloc, text, row);
    }
    match row.split_once(' ') {
        Some(("hint", asked)) => write_hint(alloc, text, asked),
        Some(("meant", asked)) => write_meant(alloc, text, asked),
        Some(("fault", asked)) => write_fault(alloc, text, asked),
        Some((kind @ ("class" | "script" | "arrivals"), file)) => write_file(
            alloc, text, kind, file,
        ),
        _ => Ok(text.push_str(row)?),
    }
}

/// What a row is answered with, as a line.
pub fn answer(alloc: Global, row: &str) -> io::Result<String> {
    let mut text = String::new(alloc);
    write_answer(alloc, &mut text, row)?;
    text.push('\n')?;
    Ok(text)
}
