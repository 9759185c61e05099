// Names and texts of two texts that are read over the same tables.

use crate::parse_rows::lexed::{write_entry, write_refusal};
use bstr::ByteSlice;
use std::alloc::{AllocError, Global};
use sts_base::{Refused, Seq, Tables};
use sts_lexer::tokens;

fn empty(alloc: Global) -> Tables {
    Tables {
        names: Seq::new(alloc),
        texts: Seq::new(alloc),
    }
}

/// Reads a text over tables, and gives why it is refused, if it is.
fn refusal(alloc: Global, text: &[u8], tables: &mut Tables) -> Option<Refused> {
    match tokens(alloc, text, tables) {
        Ok(_) => None,
        Err(refused) => Some(refused),
    }
}

fn write_reading(line: &mut String, refused: Option<Refused>) -> Result<(), AllocError> {
    match refused {
        Some(refused) => write_refusal(line, refused, true)?,
        None => line.push_str(" read")?,
    }
    line.push(';')
}

fn write_all(
    line: &mut String,
    heading: &'static str,
    strings: &Seq<Seq<u8>>,
) -> Result<(), AllocError> {
    line.push_str(heading)?;
    for entry in 0..strings.len() {
        line.push(' ')?;
        write_entry(line, strings, entry.try_into().unwrap_or(u32::MAX))?;
    }
    Ok(())
}

/// Writes why texts are refused, where they are, and then all names and all texts that they have.
fn write_readings(
    line: &mut String,
    refusals: [Option<Refused>; 2],
    tables: &Tables,
) -> Result<(), AllocError> {
    for refused in refusals {
        write_reading(line, refused)?;
    }
    write_all(line, " names", &tables.names)?;
    write_all(line, "; texts", &tables.texts)
}

/// Writes how the first line of a text is read, how the second is, and then all names and all texts, in their order.
pub fn write_entries(alloc: Global, line: &mut String, text: &[u8]) -> Result<(), AllocError> {
    let (first, second) = text.split_once_str(b"\n").unwrap_or((text, b""));
    let mut tables = empty(alloc);
    let first = refusal(alloc, first, &mut tables);
    let second = refusal(alloc, second, &mut tables);
    write_readings(line, [first, second], &tables)
}
