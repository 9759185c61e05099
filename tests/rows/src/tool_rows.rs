//! Tests alone: calls over folders, sinks and streams that fail, and the images of texts, byte for byte. A line is written for each
//! row, and `stdout` has the lines that are due, by hand. Rows of words over files that don't fail stand in checks/commands.txt. Where a
//! word is given, the row of that name in `refused` is run alone. Programs of standard input have their flat code written behind the rows.

mod asked;
mod bigs;
mod classes;
mod code;
mod commands;
mod copying;
mod devices;
mod folders;
mod game;
mod images;
mod refused;
mod sinks;
mod streams;

use std::alloc::Global;
use std::io::{self, BufRead, BufReader};

/// Shows the row of this name alone, of those in `refused`.
pub fn show_refused(rt: &impl Print, alloc: Global, name: &str) -> io::Result<()> {
    refused::show(alloc, &mut io::writer(rt), name)
}

/// Shows all others.
pub fn answer_all(rt: &(impl Input + Print), alloc: Global) -> io::Result<()> {
    let out = &mut io::writer(rt);
    folders::show(alloc, out)?;
    sinks::show(alloc, out)?;
    streams::show(alloc, out)?;
    images::show(alloc, out)?;
    commands::show(alloc, out)?;
    asked::show(alloc, out)?;
    devices::show(alloc, out)?;
    game::show(alloc, out)?;
    classes::show(alloc, out)?;
    bigs::show(alloc, out)?;
    for line in BufReader::new(alloc, rt.reader())?.lines(alloc) {
        code::show(alloc, out, line?.as_str())?;
    }
    Ok(())
}
