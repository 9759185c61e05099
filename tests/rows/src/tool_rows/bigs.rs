//! The programs of `big`.

use crate::tool_rows::folders::wanting;
use run_tool::big_text;
use std::alloc::Global;
use std::io;
use std::io::Write;

fn show_text<W: Write>(alloc: Global, out: &mut W, size: u32) -> io::Result<()> {
    let text = big_text(alloc, size).map_err(wanting)?;
    out.write_all(&text)
}

/// The two least programs, and the length of the greatest.
pub fn show<W: Write>(alloc: Global, out: &mut W) -> io::Result<()> {
    show_text(alloc, out, 1)?;
    show_text(alloc, out, 2)?;
    let text = big_text(alloc, 200).map_err(wanting)?;
    writeln!(out, "{} bytes", text.len())
}
