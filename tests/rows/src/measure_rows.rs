//! Reads rows from standard input, and prints behind each what the calls of `sts_syntax`, `sts_meaning` and `sts_prelude` give. README.md has their form.

mod deep_types;
mod forms;
mod interface;
mod library;
mod measured;
mod numbers;
mod routines;
mod rows;

use std::alloc::Global;
use std::io;

/// Answers all rows.
pub fn answer_all(rt: &(impl Input + Print), alloc: Global) -> io::Result<()> {
    for line in rt.lines(alloc) {
        let line = line?;
        let mut answer = String::new(alloc);
        rows::write_answer(alloc, &mut answer, &line)?;
        print!(rt; "{line}\n{answer}")?;
    }
    Ok(())
}
