//! One row over devices in memory, for a caller that refuses an allocation of it: `tool_rows NAME` runs the row of that name.

use crate::tool_rows::classes::class_files;
use crate::tool_rows::commands::{HEARS, RAISE, call, folder, sink, words_of};
use crate::tool_rows::devices::{device, show_place};
use crate::tool_rows::folders::wanting;
use crate::tool_rows::game::{GAME, SCRIPT};
use board_ports::{Device, MemoryDevice};
use run_tool::sts_main;
use std::alloc::Global;
use std::io;
use std::io::Write;
use tool_folder::MemoryFolder;

/// The row's name, its words, and the texts of the files f and s.
type Row = (
    &'static str,
    &'static [&'static str],
    &'static str,
    &'static str,
);

const TOGGLES: &str = "basic.forever(function () { led.toggle(0, 0) })";

/// Two handlers of one event, of which one blocks in a call.
const HANDLERS: &str = "function deep(n: number): number {
    let k = n * 3
    basic.pause(5)
    return k
}
function mid(n: number): number {
    let m = n + 1
    let r = deep(m)
    return m * 100 + r
}
control.onEvent(50, 1, function () {
    serial.writeNumber(mid(6))
})
control.onEvent(50, 1, function () {
    let a = 11
    let b = 22
    let c = 33
    let d = 44
    serial.writeNumber(a + b + c + d)
})
control.raiseEvent(50, 1)
";

/// The text of an image that ends at once.
const ENDS: &str = ":0E000000803F00200D0000000D00000000DF1A\n:00000001FF\n";

const ROWS: [Row; 5] = [
    (
        "toggles",
        &["run", "f", "s"],
        TOGGLES,
        "{\"end\":50,\"events\":[]}",
    ),
    ("handlers", &["run", "f", "--stats"], HANDLERS, ""),
    ("ends", &["run-hex", "f"], ENDS, ""),
    (
        "arrivals",
        &["run-at", "f", "s", "a"],
        HEARS,
        "{\"end\":1000,\"events\":[]}",
    ),
    ("big", &["big", "1", "--stats"], "", ""),
];

/// A folder with these texts as its files f and s, and arrivals as a.
fn files(alloc: Global, f: &str, s: &str) -> io::Result<MemoryFolder> {
    let mut files = folder(alloc, 0, f).map_err(wanting)?;
    files.add(alloc, "s", s.as_bytes()).map_err(wanting)?;
    files.add(alloc, "a", RAISE.as_bytes()).map_err(wanting)?;
    Ok(files)
}

/// A device that was told a word, the number of its place.
fn told(alloc: Global, port: u32) -> io::Result<MemoryDevice> {
    let mut device = device(alloc, 20, 0).map_err(wanting)?;
    device.write(7, port);
    Ok(device)
}

/// Writes a status, and what was taken between bars.
fn show_taken<W: Write>(out: &mut W, status: u8, taken: &[u8]) -> io::Result<()> {
    write!(out, "{status} |")?;
    out.write_all(taken)?;
    out.write_all(b"|")
}

/// Calls the top call over four devices, each of which was told a word before, and writes the status, what was taken,
/// between bars, and the devices.
fn show_call<W: Write>(
    alloc: Global,
    out: &mut W,
    words: &[&str],
    files: &mut MemoryFolder,
) -> io::Result<()> {
    let mut sink = sink(alloc, 0, 1000).map_err(wanting)?;
    let words = words_of(alloc, words)?;
    let mut plugs: Vec<Option<Box<dyn Device>>> = Vec::new(alloc);
    for port in 0..4u32 {
        let device = told(alloc, port)?;
        plugs.push(Some(Box::new(alloc, device)?))?;
    }
    let status = sts_main(alloc, words.as_slice(), files, &mut sink, &mut plugs);
    show_taken(out, status, sink.taken())?;
    for place in &plugs {
        show_place(out, place)?;
    }
    out.write_all(b"\n")
}

/// Builds the game, and runs the image on its script where it was built.
fn show_built<W: Write>(alloc: Global, out: &mut W) -> io::Result<()> {
    let mut given = files(alloc, GAME, SCRIPT)?;
    let mut text = sink(alloc, 0, 20000).map_err(wanting)?;
    let status = call(alloc, &["build", "f"], &mut given, &mut text)?;
    if status != 0 {
        return writeln!(out, "built: {status}, {} bytes", text.taken().len());
    }
    given.add(alloc, "h", text.taken()).map_err(wanting)?;
    show_call(alloc, out, &["run-hex", "h", "s"], &mut given)
}

/// Runs a class.
fn show_class<W: Write>(alloc: Global, out: &mut W, words: &[&str]) -> io::Result<()> {
    let mut given = class_files(alloc, 0).map_err(wanting)?;
    show_call(alloc, out, words, &mut given)
}

/// Runs the row of that name, where there is one.
pub fn show<W: Write>(alloc: Global, out: &mut W, name: &str) -> io::Result<()> {
    if name == "built" {
        return show_built(alloc, out);
    }
    if name == "two" {
        return show_class(alloc, out, &["class", "f"]);
    }
    if name == "eight" {
        return show_class(alloc, out, &["class", "eight"]);
    }
    for (row, words, f, s) in &ROWS {
        if *row == name {
            let mut given = files(alloc, f, s)?;
            show_call(alloc, out, words, &mut given)?;
        }
    }
    Ok(())
}
