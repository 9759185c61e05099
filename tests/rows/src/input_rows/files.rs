// What files are read as, or the code by which they are refused.

use crate::input_rows::shown::{write_arrivals, write_class, write_script};
use crate::input_rows::spelled::spelled;
use arrival_file::{ArrivalRefused, read_arrivals};
use class_file::{ClassRefused, read_class};
use event_script::{ScriptRefused, read_script};
use std::alloc::{AllocError, Global};
use std::io;

fn write_refused(text: &mut String, code: u8) -> Result<(), AllocError> {
    write!(text, "refused {code}")
}

/// Reads a class.
fn read_as_class(alloc: Global, text: &mut String, bytes: &[u8]) -> Result<(), AllocError> {
    match read_class(alloc, bytes) {
        Ok(class) => write_class(text, &class),
        Err(ClassRefused::Class(code)) => write_refused(text, code.number()),
        Err(ClassRefused::NoMemory) => Err(AllocError),
    }
}

/// Reads a script.
fn read_as_script(alloc: Global, text: &mut String, bytes: &[u8]) -> Result<(), AllocError> {
    match read_script(alloc, bytes) {
        Ok(script) => write_script(text, &script),
        Err(ScriptRefused::Script(code)) => write_refused(text, code.number()),
        Err(ScriptRefused::NoMemory) => Err(AllocError),
    }
}

/// Reads arrivals.
fn read_as_arrivals(alloc: Global, text: &mut String, bytes: &[u8]) -> Result<(), AllocError> {
    match read_arrivals(alloc, bytes) {
        Ok(arrivals) => write_arrivals(text, arrivals.as_slice()),
        Err(ArrivalRefused::Arrivals(code)) => write_refused(text, code.number()),
        Err(ArrivalRefused::NoMemory) => Err(AllocError),
    }
}

/// Reads a file of a kind, and writes what it is.
fn write_read(
    alloc: Global,
    text: &mut String,
    kind: &str,
    bytes: &[u8],
) -> Result<(), AllocError> {
    match kind {
        "class" => read_as_class(alloc, text, bytes),
        "script" => read_as_script(alloc, text, bytes),
        _ => read_as_arrivals(alloc, text, bytes),
    }
}

/// Reads the file that a row spells, and writes what it is.
pub fn write_file(alloc: Global, text: &mut String, kind: &str, file: &str) -> io::Result<()> {
    let bytes = spelled(alloc, file)?;
    write_read(alloc, text, kind, bytes.as_slice())?;
    Ok(())
}
