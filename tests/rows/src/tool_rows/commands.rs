//! The top call over folders and sinks that fail.

use crate::tool_rows::folders::wanting;
use board_ports::Device;
use run_tool::sts_main;
use std::alloc::Global;
use std::io;
use std::io::Write;
use sts_base::{NoMemory, Seq};
use tool_folder::{Folder, MemoryFolder, SureFolder};
use tool_io::{MemorySink, Sink, SureSink};

/// The calls of `fetch` and `put` that are to fail, the words, and the text of the file f; the file s is no script, and stands for no arrivals, t is one, and a stands for
/// arrivals.
type Row = (u64, u64, &'static [&'static str], &'static str);

/// A program that writes a number.
pub const SUM: &str = "serial.writeNumber(2147483647 + 1)";

/// A text of an image whose first line has a wrong sum.
pub const WRONG_SUM: &str = ":0400000001020304F3\n:00000001FF\n";

/// The text of an image that divides 7 by 1 and writes the quotient.
pub const SEVEN: &str =
    ":10000000803F00200D000000150000000248034959\n:1000100014DF0CDF00DF000007000000010000001B\n:00000001FF\n";

/// A script without entries.
pub const EMPTY: &str = "{\"end\":1000,\"events\":[]}";

/// An event that arrives.
pub const RAISE: &str = "{\"arrivals\":[{\"after\":1,\"do\":\"raise\",\"source\":50,\"value\":7}]}";

/// A program that writes an event's value.
pub const HEARS: &str =
    "control.onEvent(50, 0, function () { serial.writeNumber(control.eventValue()) })";

/// These words.
pub fn words_of(alloc: Global, words: &[&str]) -> io::Result<Vec<String>> {
    let mut given = Vec::new(alloc);
    for word in words {
        given.push(String::from_str(alloc, word)?)?;
    }
    Ok(given)
}

/// The status of the top call with these words, and no devices.
pub fn call<F: Folder, K: Sink>(
    alloc: Global,
    words: &[&str],
    folder: &mut F,
    out: &mut K,
) -> io::Result<u8> {
    let words = words_of(alloc, words)?;
    let mut plugs: Vec<Option<Box<dyn Device>>> = Vec::new(alloc);
    Ok(sts_main(alloc, words.as_slice(), folder, out, &mut plugs))
}

/// A folder with that text as its file f, whose fetch of that number is to fail.
pub fn folder(alloc: Global, failing: u64, text: &str) -> Result<MemoryFolder, NoMemory> {
    let mut fetches = Seq::new(alloc);
    fetches.push(failing)?;
    let mut folder = MemoryFolder::new(alloc, fetches)?;
    folder.add(alloc, "f", text.as_bytes())?;
    Ok(folder)
}

/// A sink with that much room, whose put of that number is to fail.
pub fn sink(alloc: Global, failing: u64, room: usize) -> Result<MemorySink, NoMemory> {
    let mut puts = Seq::new(alloc);
    puts.push(failing)?;
    let mut sink = MemorySink::new(alloc, puts)?;
    sink.reserve(alloc, room)?;
    Ok(sink)
}

/// Writes the status and what was taken, between bars.
fn show_row<W: Write>(alloc: Global, out: &mut W, row: &Row, room: usize) -> io::Result<()> {
    let (fetch, put, words, text) = *row;
    let mut folder = folder(alloc, fetch, text).map_err(wanting)?;
    folder.add(alloc, "s", b"[").map_err(wanting)?;
    folder.add(alloc, "t", EMPTY.as_bytes()).map_err(wanting)?;
    folder.add(alloc, "a", RAISE.as_bytes()).map_err(wanting)?;
    let mut sink = sink(alloc, put, room).map_err(wanting)?;
    let status = call(alloc, words, &mut folder, &mut sink)?;
    write!(out, "{status} |")?;
    out.write_all(sink.taken())?;
    out.write_all(b"|\n")
}

const ROWS: [Row; 58] = [
    (0, 0, &["run", "f"], SUM),
    (1, 0, &["run", "f"], SUM),
    (0, 1, &["run", "f"], SUM),
    (0, 2, &["run", "f"], SUM),
    (1, 0, &["run", "f", "s"], SUM),
    (2, 0, &["run", "f", "s"], SUM),
    (3, 0, &["run", "f", "s"], SUM),
    (0, 0, &["run", "g"], SUM),
    (0, 0, &["fly"], SUM),
    (1, 0, &["fly"], SUM),
    (0, 1, &["fly"], SUM),
    (1, 0, &["run-hex", "f"], WRONG_SUM),
    (0, 1, &["run-hex", "f"], WRONG_SUM),
    (0, 2, &["run-hex", "f"], WRONG_SUM),
    (0, 3, &["run-hex", "f"], WRONG_SUM),
    (1, 0, &["check", "f"], "#"),
    (0, 1, &["check", "f"], "#"),
    (0, 2, &["check", "f"], "#"),
    (0, 7, &["check", "f"], "#"),
    (0, 2, &["run-hex", "f"], SEVEN),
    (0, 3, &["run-hex", "f"], SEVEN),
    (0, 4, &["run-hex", "f"], SEVEN),
    (0, 5, &["run-hex", "f"], SEVEN),
    (0, 6, &["run-hex", "f"], SEVEN),
    (0, 7, &["run-hex", "f"], SEVEN),
    (0, 8, &["run-hex", "f"], SEVEN),
    (0, 0, &["check", "f"], SUM),
    (0, 1, &["check", "f"], SUM),
    (1, 0, &["build", "f"], SUM),
    (0, 1, &["build", "f"], SUM),
    (0, 1, &["build", "f"], "#"),
    (0, 0, &["run", "f", "--stats"], ""),
    (0, 4, &["run", "f", "--stats"], ""),
    (0, 5, &["run", "f", "--stats"], ""),
    (0, 12, &["run", "f", "--stats"], ""),
    (0, 13, &["run", "f", "--stats", "--image"], ""),
    (0, 14, &["run", "f", "--stats", "--image"], ""),
    (0, 1, &["big", "1"], ""),
    (0, 2, &["big", "1"], ""),
    (0, 3, &["big", "1"], ""),
    (0, 4, &["big", "1"], ""),
    (0, 5, &["big", "1"], ""),
    (0, 0, &["run-at", "f", "t", "a"], HEARS),
    (1, 0, &["run-at", "f", "t", "a"], HEARS),
    (2, 0, &["run-at", "f", "t", "a"], HEARS),
    (3, 0, &["run-at", "f", "t", "a"], HEARS),
    (4, 0, &["run-at", "f", "t", "a"], HEARS),
    (2, 0, &["run-at", "f", "s", "a"], HEARS),
    (3, 0, &["run-at", "f", "s", "a"], HEARS),
    (1, 0, &["run-at", "f", "s", "a"], "#"),
    (2, 0, &["run-at", "f", "s", "a"], "#"),
    (0, 0, &["run-at", "f", "t", "s"], HEARS),
    (3, 0, &["run-at", "f", "t", "s"], HEARS),
    (0, 1, &["run-at", "f", "t", "s"], HEARS),
    (0, 2, &["run-at", "f", "t", "s"], HEARS),
    (0, 3, &["run-at", "f", "t", "s"], HEARS),
    (0, 0, &["run-at", "f", "t", "g"], HEARS),
    (0, 1, &["run-at", "f", "t", "a"], HEARS),
];

/// The same over a folder and a sink that never fail.
fn show_sure<W: Write>(alloc: Global, out: &mut W) -> io::Result<()> {
    let mut folder = SureFolder::new(alloc).map_err(wanting)?;
    folder.add(alloc, "f", SUM.as_bytes()).map_err(wanting)?;
    let mut sink = SureSink::new(alloc).map_err(wanting)?;
    let status = call(alloc, &["run", "f"], &mut folder, &mut sink)?;
    writeln!(out, "{status}")
}

/// Each row with ample room, one without any, and one over what never fails.
pub fn show<W: Write>(alloc: Global, out: &mut W) -> io::Result<()> {
    for row in &ROWS {
        show_row(alloc, out, row, 1000)?;
    }
    show_row(alloc, out, &(0, 0, &["run", "f"], SUM), 0)?;
    show_sure(alloc, out)
}
