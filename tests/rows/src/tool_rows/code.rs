//! The flat code of texts: reads programs, one a line with `%%` for each line's end, and writes the flat code of their own functions, op by op.

use flat_ir::{FlatClass, FlatCode, Function, Op};
use std::alloc::{AllocError, Global};
use std::io::{self, Write};
use sts_lower::lower;
use typed_program::{accept, accepted_programs_are_buildable};

/// How many functions the library has, which stand before a program's own.
const LIBRARY_SIZE: usize = 7;

/// Writes temporaries in parentheses.
fn write_args<W: Write>(out: &mut W, args: &[u32]) -> io::Result<()> {
    write!(out, " (")?;
    for (i, arg) in args.iter().enumerate() {
        write!(out, "{}t{arg}", if i == 0 { "" } else { ", " })?;
    }
    writeln!(out, ")")
}

/// Writes what an op of values does.
fn write_value<W: Write>(out: &mut W, op: &Op) -> io::Result<()> {
    match op {
        Op::Const { to, value } => writeln!(out, "t{to} = {value}"),
        Op::Copy { to, from } => writeln!(out, "t{to} = t{from}"),
        Op::Unary { to, op, from } => writeln!(out, "t{to} = prefix {op} t{from}"),
        Op::Binary {
            to,
            op,
            left,
            right,
        } => writeln!(out, "t{to} = t{left} infix {op} t{right}"),
        Op::GlobalGet { to, slot } => writeln!(out, "t{to} = global {slot}"),
        Op::GlobalSet { slot, from } => writeln!(out, "global {slot} = t{from}"),
        Op::FieldGet { to, object, field } => writeln!(out, "t{to} = t{object}.{field}"),
        Op::FieldSet {
            object,
            field,
            from,
        } => writeln!(out, "t{object}.{field} = t{from}"),
        Op::ItemGet { to, array, index } => writeln!(out, "t{to} = t{array}[t{index}]"),
        Op::ItemSet { array, index, from } => writeln!(out, "t{array}[t{index}] = t{from}"),
        Op::Length { to, array } => writeln!(out, "t{to} = length t{array}"),
        Op::Pop { to, array } => writeln!(out, "t{to} = pop t{array}"),
        Op::TextOf { to, text } => writeln!(out, "t{to} = text {text}"),
        _ => Ok(()),
    }
}

/// Writes what an op does.
fn write_op<W: Write>(out: &mut W, op: &Op) -> io::Result<()> {
    match op {
        Op::MakeObject { to, class } => writeln!(out, "t{to} = object of {class}"),
        Op::MakeArray { to, room } => writeln!(out, "t{to} = array for {room}"),
        Op::Call { to, function, args } => {
            write!(out, "t{to} = call {function}")?;
            write_args(out, args.as_slice())
        }
        Op::CallSlot { to, slot, args } => {
            write!(out, "t{to} = call slot {slot}")?;
            write_args(out, args.as_slice())
        }
        Op::HandlerOf { to, function } => writeln!(out, "t{to} = function {function}"),
        Op::Ask { to, service, args } => {
            write!(out, "t{to} = service {service}")?;
            write_args(out, args.as_slice())
        }
        Op::Jump { target } => writeln!(out, "go to {target}"),
        Op::Branch { when, target } => writeln!(out, "if t{when} go to {target}"),
        Op::Return { from } => writeln!(out, "return t{from}"),
        other => write_value(out, other),
    }
}

/// Writes a function.
fn write_function<W: Write>(out: &mut W, number: usize, function: &Function) -> io::Result<()> {
    let (params, locals) = (function.params, function.locals);
    let (operands, outgoing) = (function.operands, function.outgoing);
    writeln!(
        out,
        "function {number}: {params} parameters, {locals} locals, {operands} operands, {outgoing} outgoing"
    )?;
    for (i, op) in function.ops.as_slice().iter().enumerate() {
        write!(out, "{i}: ")?;
        write_op(out, op)?;
    }
    Ok(())
}

/// Writes a class.
fn write_class<W: Write>(out: &mut W, number: usize, class: &FlatClass) -> io::Result<()> {
    write!(out, "class {number}: {} words, slots", class.words)?;
    for slot in class.slots.as_slice() {
        write!(out, " {slot}")?;
    }
    writeln!(out, "")
}

/// Writes a program's own functions and its classes.
fn write_code<W: Write>(out: &mut W, code: &FlatCode) -> io::Result<()> {
    for (i, function) in code.functions.as_slice().iter().enumerate() {
        if i >= LIBRARY_SIZE {
            write_function(out, i, function)?;
        }
    }
    for (i, class) in code.classes.as_slice().iter().enumerate() {
        write_class(out, i, class)?;
    }
    writeln!(out, "main {}", code.main)
}

/// The text of a line.
fn text_of(alloc: Global, line: &str) -> Result<String, AllocError> {
    let mut text = String::new(alloc);
    for (i, part) in line.split("%%").enumerate() {
        if i > 0 {
            text.push('\n')?;
        }
        text.push_str(part)?;
    }
    Ok(text)
}

/// Writes the flat code of a line's program.
pub fn show<W: Write>(alloc: Global, out: &mut W, line: &str) -> io::Result<()> {
    let text = text_of(alloc, line)?;
    accepted_programs_are_buildable();
    let Ok((typed, _)) = accept(alloc, text.as_bytes()) else {
        return writeln!(out, "not accepted");
    };
    match lower(alloc, &typed) {
        Ok(code) => write_code(out, &code),
        Err(_) => Err(io::ErrorKind::OutOfMemory)?,
    }
}
