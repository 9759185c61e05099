// A text's tree and what it declares.

use parse_unit::parse;
use std::alloc::Global;
use sts_base::{Refused, Seq, Tables};
use sts_lexer::tokens;
use sts_syntax::Unit;

/// A text, read.
#[derive(Drop)]
pub struct Read {
    pub unit: Unit,
    pub tables: Tables,
}

/// The tree of a text, whose classes 32 bits count, or why it has none.
pub fn read_text(alloc: Global, text: &str) -> Result<Read, Refused> {
    let mut tables = Tables {
        names: Seq::new(alloc),
        texts: Seq::new(alloc),
    };
    let tokens = tokens(alloc, text.as_bytes(), &mut tables)?;
    if tokens.len() == 0 {
        return Err(Refused::NoMemory);
    }
    let unit = parse(alloc, &tokens, &tables)?;
    if unit.items.len() > u32::MAX as usize {
        return Err(Refused::NoMemory);
    }
    Ok(Read { unit, tables })
}

/// The library without a part.
pub fn no_library(alloc: Global) -> Unit {
    Unit {
        items: Seq::new(alloc),
    }
}
