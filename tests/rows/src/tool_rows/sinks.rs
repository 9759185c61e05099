//! Sinks in memory.

use crate::tool_rows::folders::{numbers, wanting};
use std::alloc::Global;
use std::io;
use std::io::Write;
use sts_base::NoMemory;
use tool_io::{MemorySink, PutFailed, Sink, SureSink};

/// Puts each piece, and writes whether it was taken.
pub fn show_puts<K: Sink, W: Write>(out: &mut W, sink: &mut K, pieces: &[&str]) -> io::Result<()> {
    for piece in pieces {
        match sink.put(piece.as_bytes()) {
            Ok(()) => out.write_all(b"put ")?,
            Err(PutFailed) => out.write_all(b"refused ")?,
        }
        out.write_all(piece.as_bytes())?;
        out.write_all(b"\n")?;
    }
    Ok(())
}

/// A sink with room for five bytes, which is asked for again and less, whose second put fails.
fn sink(alloc: Global) -> Result<MemorySink, NoMemory> {
    let mut sink = MemorySink::new(alloc, numbers(alloc, 2, 9)?)?;
    sink.reserve(alloc, 3)?;
    sink.reserve(alloc, 5)?;
    sink.reserve(alloc, 2)?;
    Ok(sink)
}

/// A sink that fails at its second put and past its room, and one that never fails.
pub fn show<W: Write>(alloc: Global, out: &mut W) -> io::Result<()> {
    let mut sink = sink(alloc).map_err(wanting)?;
    show_puts(out, &mut sink, &["abc", "d", "def", "de", "f", ""])?;
    out.write_all(b"taken ")?;
    out.write_all(sink.taken())?;
    out.write_all(b"\n")?;
    let mut sure = SureSink::new(alloc).map_err(wanting)?;
    show_puts(out, &mut sure, &["abc", ""])
}
