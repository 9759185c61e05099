//! Tests alone: the programs of rows as one, since each that is compiled reads the kit anew. The first word is the name of one: its rows are read from
//! standard input, and its answers written. tests/NAME/ has the rows of each, what is due, and a README.md. A second word is the one row of `tool_rows`
//! that is shown.

mod board_rows;
mod input_rows;
mod measure_rows;
mod parse_rows;
mod part_rows;
mod thumb_rows;
mod tool_rows;
mod type_rows;

use anyhow::anyhow;
use std::alloc::Global;
use std::env;

/// Answers the rows of a program.
fn answer_all(rt: &(impl Input + Print), alloc: Global, name: &str) -> anyhow::Result<()> {
    match name {
        "board_rows" => board_rows::answer_all(rt, alloc)?,
        "input_rows" => input_rows::answer_all(rt, alloc)?,
        "measure_rows" => measure_rows::answer_all(rt, alloc)?,
        "parse_rows" => parse_rows::answer_all(rt, alloc)?,
        "part_rows" => part_rows::answer_all(rt, alloc)?,
        "thumb_rows" => thumb_rows::answer_all(rt, alloc)?,
        "tool_rows" => tool_rows::answer_all(rt, alloc)?,
        "type_rows" => type_rows::answer_all(rt, alloc)?,
        _ => return Err(anyhow!("no program of rows has this name")),
    }
    Ok(())
}

fn main(rt: HostRuntime) -> anyhow::Result<()> {
    let alloc = rt.alloc();
    let mut words = env::args(&rt)?;
    let Some(name) = words.nth(1) else {
        return Err(anyhow!("the first word is the name of a program of rows"));
    };
    match words.next() {
        Some(row) => Ok(tool_rows::show_refused(&rt, alloc, row.as_str())?),
        None => answer_all(&rt, alloc, name.as_str()),
    }
}
