// How types and refusals are written.

use std::alloc::AllocError;
use sts_base::{Refused, Tables};
use sts_scope::{Base, Environment, StaticType};

/// The bytes of a name.
pub fn write_name(line: &mut String, tables: &Tables, x: u32) -> Result<(), AllocError> {
    match tables.names.get(x as usize) {
        Some(spelling) => line.push_str(str::from_utf8(spelling.as_slice()).unwrap_or("?")),
        None => line.push_str("?"),
    }
}

/// A class is written by its number.
fn write_base(line: &mut String, base: Base) -> Result<(), AllocError> {
    match base {
        Base::Number => line.push_str("number"),
        Base::Boolean => line.push_str("boolean"),
        Base::Text => line.push_str("string"),
        Base::Nothing => line.push_str("void"),
        Base::Null => line.push_str("null"),
        Base::Empty => line.push_str("empty"),
        Base::Class(c) => write!(line, "class {c}"),
    }
}

fn write_kind(line: &mut String, kind: StaticType) -> Result<(), AllocError> {
    write_base(line, kind.base)?;
    for _ in 0..kind.depth {
        line.push_str("[]")?;
    }
    Ok(())
}

/// The name and type of a declaration; `-` where it has none.
pub fn write_declared(
    line: &mut String,
    tables: &Tables,
    known: &Environment,
    d: usize,
) -> Result<(), AllocError> {
    match known.entries().get(d) {
        None => line.push_str(" ?")?,
        Some(e) => {
            line.push_str(" ")?;
            write_name(line, tables, e.name)?;
        }
    }
    line.push_str(": ")?;
    match known.kinds().get(d) {
        Some(Some(kind)) => write_kind(line, *kind),
        Some(None) => line.push_str("-"),
        None => line.push_str("?"),
    }
}

/// Why a text is refused.
pub fn write_refusal(line: &mut String, refused: Refused) -> Result<(), AllocError> {
    match refused {
        Refused::Program { code, at } => write!(line, "  refused {code:?} at {at}\n"),
        Refused::NoMemory => line.push_str("  no memory\n"),
    }
}
