//! The names that the top call asks a folder for.

use crate::tool_rows::commands::{EMPTY, HEARS, RAISE, SEVEN, SUM, WRONG_SUM, call, folder, sink};
use crate::tool_rows::folders::wanting;
use std::alloc::Global;
use std::io;
use std::io::Write;
use sts_base::NoMemory;
use tool_folder::MemoryFolder;

/// The call of `fetch` that is to fail, the words, and the text of the file f. The file s is no script and stands for no arrivals, t is one, a stands for arrivals, and c for a
/// class of two boards, of f and t and of g, which there isn't, and t.
type Row = (u64, &'static [&'static str], &'static str);

const CLASS: &str =
    "{\"end\":1000,\"boards\":[{\"program\":\"f\",\"script\":\"t\"},{\"program\":\"g\",\"script\":\"t\"}],\"lose\":[]}";

const ROWS: [Row; 26] = [
    (0, &["fly"], SUM),
    (0, &["check"], SUM),
    (0, &["big", "1"], SUM),
    (0, &["check", "f"], SUM),
    (0, &["check", "g"], SUM),
    (1, &["check", "f"], SUM),
    (0, &["build", "f"], SUM),
    (0, &["run", "f"], SUM),
    (0, &["run", "f", "t"], SUM),
    (0, &["run", "f", "s"], SUM),
    (0, &["run", "f", "g"], SUM),
    (0, &["run", "g", "t"], SUM),
    (0, &["run", "f", "t"], "#"),
    (1, &["run", "f", "t"], SUM),
    (2, &["run", "f", "t"], SUM),
    (0, &["run", "f", "f"], SUM),
    (0, &["run-hex", "f", "t"], SEVEN),
    (0, &["run-hex", "f", "t"], WRONG_SUM),
    (0, &["run-at", "f", "t", "a"], HEARS),
    (0, &["run-at", "f", "s", "a"], HEARS),
    (0, &["run-at", "f", "t", "s"], HEARS),
    (0, &["run-at", "f", "t", "a"], "#"),
    (2, &["run-at", "f", "t", "a"], HEARS),
    (0, &["class", "c"], SUM),
    (0, &["class", "c"], "#"),
    (0, &["class", "t"], SUM),
];

fn files(alloc: Global, failing: u64, text: &str) -> Result<MemoryFolder, NoMemory> {
    let mut folder = folder(alloc, failing, text)?;
    folder.add(alloc, "s", b"[")?;
    folder.add(alloc, "t", EMPTY.as_bytes())?;
    folder.add(alloc, "a", RAISE.as_bytes())?;
    folder.add(alloc, "c", CLASS.as_bytes())?;
    Ok(folder)
}

/// Writes the status and the names, in their order.
fn show_row<W: Write>(alloc: Global, out: &mut W, row: &Row) -> io::Result<()> {
    let (failing, words, text) = *row;
    let mut folder = files(alloc, failing, text).map_err(wanting)?;
    let mut sink = sink(alloc, 0, 65_536).map_err(wanting)?;
    let status = call(alloc, words, &mut folder, &mut sink)?;
    write!(out, "asked {status}")?;
    for name in folder.asked() {
        out.write_all(b" ")?;
        out.write_all(name.as_bytes())?;
    }
    out.write_all(b"\n")
}

pub fn show<W: Write>(alloc: Global, out: &mut W) -> io::Result<()> {
    for row in &ROWS {
        show_row(alloc, out, row)?;
    }
    Ok(())
}
