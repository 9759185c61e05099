//! Tests alone: reads rows, and writes what each is answered with. README.md has the rows' forms; every other line is written as it stands.

mod dividing;
mod emitted;
mod emulated;
mod encodings;
mod fiber;
mod functions;
mod images;
mod laid;
mod lists;
mod machines;
mod names;
mod places;
mod refusals;
mod registers;
mod rows;
mod switched;

use std::alloc::Global;
use std::io;

/// Answers all rows.
pub fn answer_all(rt: &(impl Input + Print), alloc: Global) -> io::Result<()> {
    let mut bench = machines::bench_of(alloc, dividing::image(alloc)?)?;
    for row in rt.lines(alloc) {
        let text = rows::answer(alloc, &mut bench, row?.as_str())?;
        print!(rt; "{text}")?;
    }
    Ok(())
}
