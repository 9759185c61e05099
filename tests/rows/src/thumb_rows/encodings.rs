// What halfwords decode to, and how that is encoded.

use crate::thumb_rows::names::{Named, name_of};
use crate::thumb_rows::refusals::refused;
use std::alloc::AllocError;
use std::io;
use thumb_code::{Half, Instr, decode, encode};

/// The halfword of hexadecimal digits.
fn halfword(digits: &str) -> io::Result<u16> {
    match u16::from_str_radix(digits, 16) {
        Ok(halfword) => Ok(halfword),
        Err(_) => Err(refused("no halfword in hexadecimal digits")),
    }
}

/// Writes an instruction's name and fields, and the halfwords that it is encoded to.
fn write_instruction(text: &mut String, instr: Instr) -> Result<(), AllocError> {
    let half = encode(instr);
    let Named {
        name,
        fields: (a, b, c),
        offset,
    } = name_of(instr);
    write!(text, "{name} {a} {b} {c} {offset}:")?;
    match half {
        Half::One(first) => write!(text, " {first:04x}\n"),
        Half::Two(first, second) => write!(text, " {first:04x} {second:04x}\n"),
    }
}

/// How many of the halfwords that aren't the first of two decode.
fn how_many() -> u32 {
    let mut count = 0u32;
    for first in 0..0xe800u16 {
        if decode(first, 0).is_some() {
            count = count.saturating_add(1);
        }
    }
    count
}

/// Writes what one or two halfwords decode to, or of `all` how many do. What stands behind `;` is for people.
pub fn write_decoded(text: &mut String, row: &str) -> io::Result<()> {
    let (asked, _) = row.split_once(" ; ").unwrap_or((row, ""));
    if asked == "all" {
        let count = how_many();
        write!(text, "{count}\n")?;
        return Ok(());
    }
    let (first, second) = asked.split_once(' ').unwrap_or((asked, "0"));
    let first = halfword(first)?;
    let second = halfword(second)?;
    match decode(first, second) {
        Some(instr) => write_instruction(text, instr)?,
        None => text.push_str("none\n")?,
    }
    Ok(())
}
