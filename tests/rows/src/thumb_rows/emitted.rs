// Functions of flat code: whether a program of one is well formed, and the bytes of the code that it is emitted and laid to.

use crate::thumb_rows::functions::{function_of, places_of};
use crate::thumb_rows::lists::one;
use crate::thumb_rows::refusals::{no_memory, refused};
use flat_ir::{FlatClass, FlatCode, Function, Op, well_formed};
use register_assign::{Place, Placed, check_places};
use std::alloc::{AllocError, Global};
use std::io;
use sts_base::{NoMemory, Seq};
use thumb_emit::emit;
use thumb_layout::{Laid, lay};

/// A program of one function, and of one class with one word and that function in its slot.
fn program(alloc: Global, function: Function) -> Result<FlatCode, NoMemory> {
    let slots = one(alloc, 0u32)?;
    let classes = one(alloc, FlatClass { words: 1, slots })?;
    Ok(FlatCode {
        functions: one(alloc, function)?,
        classes,
        main: 0,
    })
}

/// Writes whether a program of the row's function is well formed.
pub fn write_formed(alloc: Global, text: &mut String, asked: &str) -> io::Result<()> {
    let Some((head, code)) = asked.split_once(':') else {
        return Err(refused("no ops"));
    };
    let function = function_of(alloc, head, code)?;
    let program = program(alloc, function).map_err(no_memory)?;
    if well_formed(&program) {
        text.push_str("well formed\n")?;
    } else {
        text.push_str("not well formed\n")?;
    }
    Ok(())
}

/// The function of a row with its places.
fn placed(alloc: Global, asked: &str) -> io::Result<Placed> {
    let Some((head, rest)) = asked.split_once(':') else {
        return Err(refused("no places"));
    };
    let Some((places, code)) = rest.split_once(':') else {
        return Err(refused("no ops"));
    };
    let function = function_of(alloc, head, code)?;
    Ok(Placed {
        function,
        places: places_of(alloc, places)?,
    })
}

/// So many ops have labels of 32 bits.
const MOST_OPS: usize = 1_431_655_764;

/// The code of a function; none where it isn't well formed, its places aren't sound, or it has more ops than labels.
fn code_of(alloc: Global, placed: &Placed) -> Result<Option<Laid>, NoMemory> {
    if !check_places(alloc, placed)? || !placed.function.is_well_formed() {
        return Ok(None);
    }
    if placed.function.ops.len() > MOST_OPS {
        return Ok(None);
    }
    let pieces = emit(alloc, placed)?;
    match lay(alloc, &pieces) {
        Ok(code) => Ok(Some(code)),
        Err(_) => Err(NoMemory),
    }
}

/// Writes bytes in hexadecimal digits.
fn write_bytes(text: &mut String, bytes: &[u8]) -> Result<(), AllocError> {
    for byte in bytes {
        write!(text, "{byte:02x}")?;
    }
    text.push('\n')
}

/// Writes the code of a function, what is open in it being 0.
fn write_code(alloc: Global, text: &mut String, placed: &Placed) -> io::Result<()> {
    match code_of(alloc, placed).map_err(no_memory)? {
        Some(code) => write_bytes(text, code.bytes.as_slice())?,
        None => text.push_str("not ready\n")?,
    }
    Ok(())
}

/// So many copies, and a return.
fn ops_of_copies(alloc: Global, n: u32) -> Result<Seq<Op>, NoMemory> {
    let mut ops = Seq::new(alloc);
    for _ in 0..n {
        ops.push(Op::Copy { to: 0, from: 0 })?;
    }
    ops.push(Op::Return { from: 0 })?;
    Ok(ops)
}

/// A function of so many copies, and a return.
fn copies(alloc: Global, n: u32) -> Result<Placed, NoMemory> {
    let ops = ops_of_copies(alloc, n)?;
    Ok(Placed {
        function: Function {
            params: 1,
            locals: 0,
            operands: 0,
            outgoing: 0,
            ops,
        },
        places: one(alloc, Place::Incoming(0))?,
    })
}

/// How many pieces a function is emitted to; 0 where it isn't well formed, its places aren't sound, or it has more ops than labels.
fn pieces_of(alloc: Global, placed: &Placed) -> Result<usize, NoMemory> {
    if !check_places(alloc, placed)? || !placed.function.is_well_formed() {
        return Ok(0);
    }
    if placed.function.ops.len() > MOST_OPS {
        return Ok(0);
    }
    Ok(emit(alloc, placed)?.len())
}

/// Writes how many pieces a function of so many copies has.
fn write_count(alloc: Global, text: &mut String, n: &str) -> io::Result<()> {
    let Ok(n) = n.parse::<u32>() else {
        return Err(refused("no number of copies"));
    };
    let placed = copies(alloc, n).map_err(no_memory)?;
    let count = pieces_of(alloc, &placed).map_err(no_memory)?;
    write!(text, "{count} pieces\n")?;
    Ok(())
}

/// Writes the bytes of the row's function, or of `copies N` how many pieces it has.
pub fn write_emitted(alloc: Global, text: &mut String, asked: &str) -> io::Result<()> {
    if let Some(n) = asked.strip_prefix("copies ") {
        return write_count(alloc, text, n);
    }
    let placed = placed(alloc, asked)?;
    write_code(alloc, text, &placed)
}
