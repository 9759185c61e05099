//! Tests alone: reads rows, and writes what each is answered with. README.md has the rows' forms; every other line is written as it stands.

mod arena;
mod bases;
mod calls;
mod drivers;
mod fibers;
mod listeners;
mod lists;
mod numbers;
mod places;
mod records;
mod refusals;
mod rows;
mod streams;
mod worlds;

use std::alloc::Global;
use std::io;

/// Answers all rows.
pub fn answer_all(rt: &(impl Input + Print), alloc: Global) -> io::Result<()> {
    let mut runtime = fibers::runtime_of(alloc)?;
    for row in rt.lines(alloc) {
        let text = rows::answer(alloc, &mut runtime, row?.as_str())?;
        print!(rt; "{text}")?;
    }
    Ok(())
}
