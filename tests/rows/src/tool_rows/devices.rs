//! Runs over devices, which are unplugged, fail, or are left where the sink fails.

use crate::tool_rows::commands::{folder, sink, words_of};
use crate::tool_rows::copying::{Copies, CopyingDevice};
use crate::tool_rows::folders::wanting;
use board_ports::{Device, MemoryDevice};
use run_tool::sts_main;
use std::alloc::Global;
use std::cell::RefCell;
use std::io;
use std::io::Write;
use std::rc::Rc;
use sts_base::{NoMemory, Seq};

/// The text of an image that pauses for 5 ms, writes 7, and shows the frame 7.
const PAUSES: &str = ":18000000803F00200D00000015000000052002DF07200CDF0BDF00DF06\n:00000001FF\n";

/// A program that toggles a light every 20 ms.
const TOGGLES: &str = "basic.forever(function () { led.toggle(0, 0) })";

const QUIET: &str = "{\"end\":9,\"events\":[]}";

/// The put and the display's write that are to fail, and the script.
type Row = (u64, u64, &'static str);

/// A device with room for so many words, whose write of that number is to fail.
pub fn device(alloc: Global, room: usize, failing: u64) -> Result<MemoryDevice, NoMemory> {
    let mut writes = Seq::new(alloc);
    writes.push(failing)?;
    MemoryDevice::new(alloc, room, writes)
}

/// Whether each of the places from that one on holds a device that was told nothing.
pub fn are_untold(plugs: &[Option<Box<dyn Device>>], first: usize) -> bool {
    for place in plugs.iter().skip(first) {
        match place {
            Some(device) if device.logged(0).is_none() => {}
            _ => return false,
        }
    }
    true
}

/// Writes what a device tells of its first twenty words, each behind its moment.
pub fn show_place<W: Write>(out: &mut W, place: &Option<Box<dyn Device>>) -> io::Result<()> {
    match place {
        None => out.write_all(b" none"),
        Some(device) => {
            out.write_all(b" log")?;
            for at in 0..20usize {
                if let Some((now, word)) = device.logged(at) {
                    write!(out, " {now}:{word}")?;
                }
            }
            Ok(())
        }
    }
}

/// Runs an image or a program, by the command `run-hex` or `run`, on a script over these devices, where the put of that number is to fail, and writes the status, what was taken, between bars, and each device.
fn show_run<W: Write>(
    alloc: Global,
    out: &mut W,
    command: &str,
    text: &str,
    script: &str,
    put: u64,
    mut plugs: Vec<Option<Box<dyn Device>>>,
) -> io::Result<()> {
    let mut folder = folder(alloc, 0, text).map_err(wanting)?;
    folder.add(alloc, "s", script.as_bytes()).map_err(wanting)?;
    let mut sink = sink(alloc, put, 1000).map_err(wanting)?;
    let words = words_of(alloc, &[command, "f", "s"])?;
    let status = sts_main(alloc, words.as_slice(), &mut folder, &mut sink, &mut plugs);
    write!(out, "{status} |")?;
    out.write_all(sink.taken())?;
    out.write_all(b"|")?;
    for place in plugs.iter() {
        show_place(out, place)?;
    }
    Ok(())
}

/// A run over a display and a device at the serial port.
fn show_row<W: Write>(
    alloc: Global,
    out: &mut W,
    command: &str,
    text: &str,
    row: &Row,
) -> io::Result<()> {
    let (put, write, script) = *row;
    let display = device(alloc, 4, write).map_err(wanting)?;
    let serial = device(alloc, 4, 0).map_err(wanting)?;
    let mut plugs: Vec<Option<Box<dyn Device>>> = Vec::new(alloc);
    plugs.push(Some(Box::new(alloc, display)?))?;
    plugs.push(Some(Box::new(alloc, serial)?))?;
    show_run(alloc, out, command, text, script, put, plugs)?;
    out.write_all(b"\n")
}

/// Writes the copies, each behind its moment.
fn show_copies<W: Write>(out: &mut W, copies: &Copies) -> io::Result<()> {
    out.write_all(b" copies")?;
    if let Ok(list) = copies.try_borrow() {
        for (now, word) in list.as_slice() {
            write!(out, " {now}:{word}")?;
        }
    }
    out.write_all(b"\n")
}

/// A run over a display that copies its words to a shared list, and what stands in that list when the display is gone.
fn show_copying<W: Write>(alloc: Global, out: &mut W, script: &str) -> io::Result<()> {
    let copies: Copies = Rc::new(alloc, RefCell::new(Vec::new(alloc)))?;
    let display = CopyingDevice::new(copies.clone()?);
    let mut plugs: Vec<Option<Box<dyn Device>>> = Vec::new(alloc);
    plugs.push(Some(Box::new(alloc, display)?))?;
    show_run(alloc, out, "run", TOGGLES, script, 0, plugs)?;
    show_copies(out, &copies)
}

const ROWS: [Row; 7] = [
    (0, 0, QUIET),
    (
        0,
        0,
        "{\"end\":9,\"events\":[{\"at\":3,\"do\":\"unplug\",\"port\":1}]}",
    ),
    (
        0,
        0,
        "{\"end\":9,\"events\":[{\"at\":6,\"do\":\"unplug\",\"port\":0}]}",
    ),
    (0, 1, QUIET),
    (1, 0, QUIET),
    (6, 0, QUIET),
    (0, 0, "{\"end\":9}"),
];

const UNPLUGS: &str = "{\"end\":50,\"events\":[{\"at\":30,\"do\":\"unplug\",\"port\":0}]}";

const PROGRAM_ROWS: [Row; 3] = [
    (0, 0, UNPLUGS),
    (0, 2, "{\"end\":50,\"events\":[]}"),
    (0, 0, "{\"end\":50,\"events\":[]}"),
];

/// Each row in turn.
pub fn show<W: Write>(alloc: Global, out: &mut W) -> io::Result<()> {
    for row in &ROWS {
        show_row(alloc, out, "run-hex", PAUSES, row)?;
    }
    for row in &PROGRAM_ROWS {
        show_row(alloc, out, "run", TOGGLES, row)?;
    }
    show_copying(alloc, out, UNPLUGS)
}
