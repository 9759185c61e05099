// The library.
use std::alloc::{AllocError, Global};
use sts_base::{Seq, Tables};
use sts_prelude::library;
use sts_syntax::{Item, Unit};

/// Writes a function of the library: its name, and how many parameters and statements it has.
fn write_item(line: &mut String, item: &Item, tables: &Tables) -> Result<(), AllocError> {
    let Item::Function { name, body } = item else {
        return line.push_str("  no function\n");
    };
    let params = body.params.len();
    let stmts = body.stmts.len();
    let spelled = match tables.names.get(*name as usize) {
        Some(spelling) => str::from_utf8(spelling.as_slice()).unwrap_or("?"),
        None => "?",
    };
    write!(line, "  {spelled} takes {params}, {stmts} statements\n")
}

/// Writes the functions of the library, and how many names and texts its tables have.
fn write_items(line: &mut String, unit: &Unit, tables: &Tables) -> Result<(), AllocError> {
    for item in unit.items.as_slice() {
        write_item(line, item, tables)?;
    }
    let names = tables.names.len();
    let texts = tables.texts.len();
    write!(line, "  {names} names, {texts} text\n")
}

/// Writes the library in empty tables.
pub fn write_library(alloc: Global, line: &mut String) -> Result<(), AllocError> {
    let mut tables = Tables {
        names: Seq::new(alloc),
        texts: Seq::new(alloc),
    };
    match library(alloc, &mut tables) {
        Ok(unit) => write_items(line, &unit, &tables),
        Err(_) => Err(AllocError),
    }
}
