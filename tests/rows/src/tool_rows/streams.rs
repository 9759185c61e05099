//! Streams that give and take little at a time, are interrupted, or fail.

use crate::tool_rows::folders::show_found;
use std::alloc::Global;
use std::io;
use std::io::{ErrorKind, Read, Write};
use sts_base::NoMemory;
use tool_folder::{FetchFault, read_up_to};
use tool_io::{Sink, StdSink};

/// A reader of ten bytes that gives three at a time, and fails so at every other read.
#[derive(Drop)]
struct Halting {
    given: usize,
    reads: u64,
    error: ErrorKind,
}

impl Read for Halting {
    fn read(&mut self, buf: &mut [u8]) -> io::Result<usize> {
        self.reads = self.reads.saturating_add(1);
        if self.reads % 2 == 0 {
            return Err(io::Error::from(self.error));
        }
        let left = &b"abcdefghij"[self.given.min(10)..];
        let count = left.len().min(buf.len()).min(3);
        buf[..count].copy_from_slice(&left[..count]);
        self.given = self.given.saturating_add(count);
        Ok(count)
    }
}

/// Reads up to so many bytes of such a reader, and writes what was found.
fn show_read<W: Write>(
    alloc: Global,
    out: &mut W,
    error: ErrorKind,
    limit: usize,
) -> io::Result<()> {
    let mut reader = Halting {
        given: 0,
        reads: 0,
        error,
    };
    match read_up_to(alloc, &mut reader, limit) {
        Ok(found) => show_found(out, &Ok(found)),
        Err(why) if why.kind() == ErrorKind::OutOfMemory => {
            show_found(out, &Err(FetchFault::NoMemory))
        }
        Err(_) => show_found(out, &Err(FetchFault::Failed)),
    }
}

/// A writer that takes so many bytes, one at a time, and is interrupted before each; then it takes none.
#[derive(Drop)]
struct Narrow<'a, W: Write> {
    below: &'a mut W,
    room: usize,
    writes: u64,
}

impl<W: Write> Write for Narrow<'_, W> {
    fn write(&mut self, buf: &[u8]) -> io::Result<usize> {
        self.writes = self.writes.saturating_add(1);
        if self.writes % 2 == 1 {
            return Err(io::Error::from(ErrorKind::Interrupted));
        }
        let count = self.room.min(buf.len()).min(1);
        self.below.write_all(&buf[..count])?;
        self.room -= count;
        Ok(count)
    }

    fn flush(&mut self) -> io::Result<()> {
        Ok(())
    }
}

/// What a stream answers where no memory is found for its sink.
fn no_memory(_error: NoMemory) -> io::Error {
    io::Error::from(ErrorKind::OutOfMemory)
}

/// Puts each piece to a stream that takes so many bytes. What it took stands between bars, and then how many puts were refused.
fn show_stream<W: Write>(
    alloc: Global,
    out: &mut W,
    room: usize,
    pieces: &[&str],
) -> io::Result<()> {
    out.write_all(b"|")?;
    let mut refused = 0u64;
    let narrow = Narrow {
        below: out,
        room,
        writes: 0,
    };
    let mut sink = StdSink::new(alloc, narrow).map_err(no_memory)?;
    for piece in pieces {
        if sink.put(piece.as_bytes()).is_err() {
            refused = refused.saturating_add(1);
        }
    }
    drop(sink);
    writeln!(out, "| {refused} refused")
}

/// Puts pieces of a thousand bytes to a stream that takes nothing, until one is refused.
fn show_full<W: Write>(alloc: Global, out: &mut W) -> io::Result<()> {
    let mut taken = 0u64;
    let narrow = Narrow {
        below: out,
        room: 0,
        writes: 0,
    };
    let mut sink = StdSink::new(alloc, narrow).map_err(no_memory)?;
    for _ in 0..100 {
        if sink.put(&[b'x'; 1000]).is_ok() {
            taken = taken.saturating_add(1);
        }
    }
    drop(sink);
    writeln!(out, "{taken} of 100 taken")
}

/// Puts that end no line, one that does, and one behind it; a stream that ends in the middle of a line; and one that takes nothing.
fn show_streams<W: Write>(alloc: Global, out: &mut W) -> io::Result<()> {
    show_stream(alloc, out, 9, &["abc", "", "def"])?;
    show_stream(alloc, out, 9, &["abc", "", "d\n", "ef"])?;
    show_stream(alloc, out, 9, &["abc\n", "\n", "a\nb"])?;
    show_stream(alloc, out, 5, &["ab\n", "cd", "ef\n", "g", ""])?;
    show_stream(alloc, out, 5, &["ab\n", "cd", "ef\n", "g", "\n"])?;
    show_full(alloc, out)
}

/// Reads that are short and interrupted are gone on with; other errors end them. So of writes.
pub fn show<W: Write>(alloc: Global, out: &mut W) -> io::Result<()> {
    show_read(alloc, out, ErrorKind::Interrupted, 10)?;
    show_read(alloc, out, ErrorKind::Interrupted, 11)?;
    show_read(alloc, out, ErrorKind::Interrupted, 9)?;
    show_read(alloc, out, ErrorKind::Interrupted, 0)?;
    show_read(alloc, out, ErrorKind::NotFound, 10)?;
    show_read(alloc, out, ErrorKind::OutOfMemory, 10)?;
    show_streams(alloc, out)
}
