//! Reads rows from standard input, each with a text of the language and what is asked of it, and prints behind each what the product's own
//! calls give: a tree, the tokens, or the refusal. Every other line is printed as it stands.

mod answers;
mod cuts;
mod entries;
mod lexed;
mod nodes;
mod operators;
mod parts;
mod pieces;
mod rows;
mod shown;
mod tokens;
mod units;

use std::alloc::Global;
use std::io;

/// Answers all rows.
pub fn answer_all(rt: &(impl Input + Print), alloc: Global) -> io::Result<()> {
    for line in rt.lines(alloc) {
        let line = line?;
        let mut answer = String::new(alloc);
        answers::write_lines(alloc, &mut answer, &line)?;
        print!(rt; "{line}\n{answer}")?;
    }
    Ok(())
}
