// A device over streams that are interrupted, take nothing, or fail.

use crate::part_rows::refusals::{no_memory, refused};
use board_ports::{Device, EchoDevice};
use std::alloc::{AllocError, Global};
use std::io;
use std::io::{ErrorKind, Write};

/// A writer that fails so at every other write, from the first on, and takes so many bytes at the others; then it takes none.
#[derive(Drop)]
struct Narrow<'a> {
    below: &'a mut Vec<u8>,
    room: usize,
    writes: u64,
    error: ErrorKind,
}

impl Write for Narrow<'_> {
    fn write(&mut self, buf: &[u8]) -> io::Result<usize> {
        self.writes = self.writes.saturating_add(1);
        if self.writes % 2 == 1 {
            return Err(io::Error::from(self.error));
        }
        let count = self.room.min(buf.len());
        self.below.extend_from_slice(&buf[..count])?;
        self.room -= count;
        Ok(count)
    }

    fn flush(&mut self) -> io::Result<()> {
        Ok(())
    }
}

/// What a device took: how many words, how often it settled, and whether it tells of a log.
#[derive(Clone, Copy)]
struct Taken {
    words: u64,
    settled: u64,
    logged: bool,
}

/// Writes lists of words to a device over such a stream. Where it is to settle, it does so behind each list.
fn put(
    alloc: Global,
    below: &mut Vec<u8>,
    room: usize,
    error: ErrorKind,
    outputs: &[&[u32]],
    settles: bool,
) -> io::Result<Taken> {
    let narrow = Narrow {
        below,
        room,
        writes: 0,
        error,
    };
    let mut device = EchoDevice::new(alloc, narrow).map_err(no_memory)?;
    let mut all = Taken {
        words: 0,
        settled: 0,
        logged: false,
    };
    for words in outputs {
        for word in *words {
            if device.write(5, *word) {
                all.words = all.words.saturating_add(1);
            }
        }
        if settles && device.settle() {
            all.settled = all.settled.saturating_add(1);
        }
    }
    all.logged = device.logged(0).is_some();
    Ok(all)
}

/// Writes the bytes of a stream between bars, and how many words were taken and how often the device settled.
fn write_taken(text: &mut String, bytes: &[u8], taken: Taken) -> Result<(), AllocError> {
    let Taken {
        words,
        settled,
        logged,
    } = taken;
    let bytes = str::from_utf8(bytes).unwrap_or("?");
    write!(
        text,
        "|{bytes}| {words} taken, {settled} settled, log {logged}\n"
    )
}

/// Words to a device over such a stream.
fn write_outputs(
    alloc: Global,
    text: &mut String,
    room: usize,
    error: ErrorKind,
    outputs: &[&[u32]],
    settles: bool,
) -> io::Result<()> {
    let mut bytes = Vec::new(alloc);
    let taken = put(alloc, &mut bytes, room, error, outputs, settles)?;
    write_taken(text, bytes.as_slice(), taken)?;
    Ok(())
}

/// How many of so many words a device takes, over a stream that takes nothing.
fn held_back(alloc: Global, below: &mut Vec<u8>, count: u32) -> io::Result<u64> {
    let narrow = Narrow {
        below,
        room: 0,
        writes: 0,
        error: ErrorKind::Interrupted,
    };
    let mut device = EchoDevice::new(alloc, narrow).map_err(no_memory)?;
    let mut taken = 0u64;
    for _ in 0..count {
        if device.write(5, 120) {
            taken = taken.saturating_add(1);
        }
    }
    Ok(taken)
}

/// More words than the device holds back.
fn write_full(alloc: Global, text: &mut String) -> io::Result<()> {
    let mut bytes = Vec::new(alloc);
    let taken = held_back(alloc, &mut bytes, 40_000)?;
    write!(text, "{taken} of 40000 taken\n")?;
    Ok(())
}

/// An interrupted write is tried again; another error is a fault, and so is a write that takes nothing. What was held back then still is. The low byte
/// of a word is written. A byte that ends a line is written at once, with those before it; others wait until the device settles.
pub fn write_streams(alloc: Global, text: &mut String, asked: &str) -> io::Result<()> {
    match asked {
        "interrupted" => {
            let outputs: [&[u32]; 2] = [&[104, 361], &[33, 63]];
            write_outputs(alloc, text, 3, ErrorKind::Interrupted, &outputs, true)
        }
        "broken" => {
            let outputs: [&[u32]; 2] = [&[104, 105, 106], &[107]];
            write_outputs(alloc, text, 3, ErrorKind::BrokenPipe, &outputs, true)
        }
        "lines" => {
            let outputs: [&[u32]; 2] = [&[], &[104, 10, 105]];
            write_outputs(alloc, text, 9, ErrorKind::Interrupted, &outputs, true)
        }
        "unsettled" => {
            let outputs: [&[u32]; 2] = [&[104, 10, 105], &[106]];
            write_outputs(alloc, text, 9, ErrorKind::Interrupted, &outputs, false)
        }
        "broken lines" => {
            let outputs: [&[u32]; 2] = [&[104, 10], &[105, 266]];
            write_outputs(alloc, text, 9, ErrorKind::BrokenPipe, &outputs, false)
        }
        "full" => write_full(alloc, text),
        _ => Err(refused("no such stream")),
    }
}
