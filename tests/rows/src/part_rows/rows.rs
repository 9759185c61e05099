// One row, and its answer.

use crate::part_rows::{
    arena, bases, drivers, fibers, listeners, lists, places, records, streams, worlds,
};
use fiber_runtime::Runtime;
use std::alloc::Global;
use std::io;

/// Writes a line as it stands.
fn write_line(text: &mut String, row: &str) -> io::Result<()> {
    text.push_str(row)?;
    text.push('\n')?;
    Ok(())
}

/// Writes what is answered to a row, whose first word says which area it is for.
fn write_answer(
    alloc: Global,
    text: &mut String,
    runtime: &mut Runtime,
    row: &str,
) -> io::Result<()> {
    let (area, asked) = row.split_once(' ').unwrap_or((row, ""));
    match area {
        "list" => bases::write_list(alloc, text, asked),
        "place" => bases::write_place(alloc, text, asked),
        "code" => bases::write_code(text, asked),
        "maps" => bases::write_maps(alloc, text, asked),
        "heard" => worlds::write_heard(alloc, text, asked),
        "idle" => worlds::write_idle(text, asked),
        "turned" => worlds::write_turned(alloc, text, asked),
        "fibers" => fibers::obey(alloc, text, runtime, asked),
        "lists" => lists::write_lists(alloc, text, asked),
        "records" => records::write_records(alloc, text, asked),
        "listeners" => listeners::write_listeners(alloc, text, asked),
        "arena" => arena::write_grown(alloc, text),
        "click" => drivers::write_click(alloc, text, asked),
        "frames" => drivers::write_frames(text, asked),
        "glyph" => drivers::write_glyph(text, asked),
        "drawn" => drivers::write_drawn(text, asked),
        "places" => places::write_places(alloc, text, asked),
        "streams" => streams::write_streams(alloc, text, asked),
        _ => write_line(text, row),
    }
}

/// What a row is answered with.
pub fn answer(alloc: Global, runtime: &mut Runtime, row: &str) -> io::Result<String> {
    let mut text = String::new(alloc);
    write_answer(alloc, &mut text, runtime, row)?;
    Ok(text)
}
