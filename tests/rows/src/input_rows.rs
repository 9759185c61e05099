//! Tests alone: reads rows, and writes what each is answered with. README.md has the rows' forms; every other line is written as it stands.

mod faults;
mod files;
mod hints;
mod rows;
mod shown;
mod spelled;
mod words;

use std::alloc::Global;
use std::io;

/// Answers all rows.
pub fn answer_all(rt: &(impl Input + Print), alloc: Global) -> io::Result<()> {
    for row in rt.lines(alloc) {
        let text = rows::answer(alloc, row?.as_str())?;
        print!(rt; "{text}")?;
    }
    Ok(())
}
