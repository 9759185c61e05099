// One row, and its answer.

use crate::thumb_rows::machines::Bench;
use crate::thumb_rows::{dividing, emitted, encodings, images, laid, machines, places, switched};
use std::alloc::Global;
use std::io;

/// Writes a line as it stands.
fn write_line(text: &mut String, row: &str) -> io::Result<()> {
    text.push_str(row)?;
    text.push('\n')?;
    Ok(())
}

/// Writes what is answered to a row, whose first word says which area it is for.
fn write_answer(alloc: Global, text: &mut String, bench: &mut Bench, row: &str) -> io::Result<()> {
    let (area, asked) = row.split_once(' ').unwrap_or((row, ""));
    match area {
        "lay" => laid::write_laid(alloc, text, asked),
        "image" => images::write_image(alloc, text, asked),
        "decode" => encodings::write_decoded(text, asked),
        "machine" => machines::obey(alloc, text, bench, asked),
        "divide" => dividing::write_divided(text, bench.divider(), asked),
        "switch" => switched::write_switched(alloc, text, asked),
        "places" => places::write_given(alloc, text, asked),
        "formed" => emitted::write_formed(alloc, text, asked),
        "emit" => emitted::write_emitted(alloc, text, asked),
        _ => write_line(text, row),
    }
}

/// What a row is answered with.
pub fn answer(alloc: Global, bench: &mut Bench, row: &str) -> io::Result<String> {
    let mut text = String::new(alloc);
    write_answer(alloc, &mut text, bench, row)?;
    Ok(text)
}
