// What a switch does to a fiber.

use crate::thumb_rows::fiber::{
    Changes, Filled, block, block_by, changed, fill, lower, resume, resume_by, started,
};
use crate::thumb_rows::refusals::{no_memory, refused};
use fiber_runtime::Runtime;
use std::alloc::{AllocError, Global};
use std::io;
use sts_base::Seq;
use thumb_switch::{Switch, routine};

/// How many instructions each execution took, what it changed, and the switch's count.
#[derive(Clone, Copy)]
struct Row {
    first: u64,
    block: u64,
    behind: Option<Changes>,
    record: Option<Changes>,
    resume: u64,
    back: Option<Changes>,
    count: u64,
}

/// Main is resumed by the switch, blocks by it with so many words, is resumed and blocks by the runtime, and is resumed by the switch. None where one of these isn't
/// done.
fn row_of(switch: &mut Switch, runtime: &mut Runtime, words: u16) -> Option<Row> {
    let resumed = resume_by(switch, runtime);
    let first = switch.count();
    lower(runtime, words);
    fill(runtime, Filled::Numbers);
    let blocked = block_by(switch, runtime);
    let second = switch.count();
    let behind = changed(runtime, Filled::Numbers);
    fill(runtime, Filled::Zeros);
    let again = resume(runtime);
    let record = changed(runtime, Filled::Zeros);
    fill(runtime, Filled::Numbers);
    let kept = block(runtime);
    fill(runtime, Filled::Zeros);
    let last = resume_by(switch, runtime);
    let count = switch.count();
    if !(resumed && blocked && again && kept && last) {
        return None;
    }
    Some(Row {
        first,
        block: second.saturating_sub(first),
        behind,
        record,
        resume: count.saturating_sub(second),
        back: changed(runtime, Filled::Zeros),
        count,
    })
}

fn write_changes(text: &mut String, changes: Option<Changes>) -> Result<(), AllocError> {
    match changes {
        None => text.push_str(" -"),
        Some(
            Changes {
                count,
                at,
                word,
                end,
                last,
            },
        ) => write!(text, " {count} {at}={word} {end}={last}"),
    }
}

/// Writes a row: how many instructions were executed where main was resumed for the first time; then where it blocked, what that changed in the stack region, and what its
/// record's words are; then where it was resumed, and what that changed; and the switch's count.
fn write_row(text: &mut String, row: &Row) -> Result<(), AllocError> {
    let Row {
        first,
        block,
        resume,
        count,
        ..
    } = *row;
    write!(text, "{first} | {block}")?;
    write_changes(text, row.behind)?;
    write_changes(text, row.record)?;
    write!(text, " | {resume}")?;
    write_changes(text, row.back)?;
    write!(text, " | {count}\n")
}

/// The bytes of hexadecimal digits.
fn bytes_of(alloc: Global, digits: &str) -> io::Result<Seq<u8>> {
    let Ok(given) = hex::decode(alloc, digits) else {
        return Err(refused("no bytes in hexadecimal digits"));
    };
    let mut bytes = Seq::new(alloc);
    for byte in given.as_slice() {
        bytes.push(*byte).map_err(no_memory)?;
    }
    Ok(bytes)
}

/// The switch with the bytes of a row.
fn switch_of(alloc: Global, bytes: &str) -> io::Result<Switch> {
    if bytes == "routine" {
        return Switch::new(alloc).map_err(no_memory);
    }
    let bytes = bytes_of(alloc, bytes)?;
    if bytes.len() > 65_536 {
        return Err(refused("too many bytes"));
    }
    Ok(Switch::of(bytes))
}

/// What a switch does where main has so many words.
fn switched(alloc: Global, words: u16, bytes: &str) -> io::Result<Option<Row>> {
    let mut switch = switch_of(alloc, bytes)?;
    let mut runtime = started(alloc)?;
    Ok(row_of(&mut switch, &mut runtime, words))
}

/// The routine's bytes in hexadecimal digits.
fn write_routine(alloc: Global, text: &mut String) -> io::Result<()> {
    let bytes = routine(alloc).map_err(no_memory)?;
    for byte in bytes.as_slice() {
        write!(text, "{byte:02x}")?;
    }
    text.push('\n')?;
    Ok(())
}

/// Writes the routine's bytes, or what a switch does: a row is `bytes`, or a number of words and the switch's bytes or `routine`.
pub fn write_switched(alloc: Global, text: &mut String, asked: &str) -> io::Result<()> {
    if asked == "bytes" {
        return write_routine(alloc, text);
    }
    let Some((words, bytes)) = asked.split_once(' ') else {
        return Err(refused("no bytes"));
    };
    let Ok(words) = words.parse::<u16>() else {
        return Err(refused("no number of words"));
    };
    match switched(alloc, words, bytes)? {
        Some(row) => write_row(text, &row)?,
        None => return Err(refused("main doesn't block or isn't ready")),
    }
    Ok(())
}
