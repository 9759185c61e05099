//! Reads rows from standard input, and prints behind each what `resolve` and `solve` give. README.md has their form.

mod answers;
mod reading;
mod shown;

use std::alloc::Global;
use std::io;

/// Answers all rows.
pub fn answer_all(rt: &(impl Input + Print), alloc: Global) -> io::Result<()> {
    for line in rt.lines(alloc) {
        let line = line?;
        println!(rt; "{line}")?;
        let answer = answers::answer(alloc, line.as_str())?;
        print!(rt; "{answer}")?;
    }
    Ok(())
}
