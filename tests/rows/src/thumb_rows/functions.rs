// Functions of flat code as texts: four numbers, and ops apart by `;`. A place is `r4`, `s0` or `i0`.

use crate::thumb_rows::refusals::{no_memory, refused};
use flat_ir::{Function, Op};
use register_assign::Place;
use std::alloc::Global;
use std::io;
use sts_base::Seq;

/// The numbers of a text; none where one isn't a number.
fn numbers(alloc: Global, text: &str) -> io::Result<Vec<i32>> {
    let mut all = Vec::new(alloc);
    for word in text.split_whitespace() {
        match word.parse::<i32>() {
            Ok(number) => all.push(number)?,
            Err(_) => return Err(refused("no number")),
        }
    }
    Ok(all)
}

/// A number at a place, and 0 where there is none.
fn at(numbers: &[i32], place: usize) -> u32 {
    match numbers.get(place) {
        Some(number) => number.cast_unsigned(),
        None => 0,
    }
}

/// An operator or a service.
fn byte(number: u32) -> Option<u8> {
    u8::try_from(number).ok()
}

fn numbered(text: &str) -> Option<u32> {
    text.parse().ok()
}

/// A place by its word.
fn place_of(word: &str) -> Option<Place> {
    let (kind, number) = word.split_at_checked(1)?;
    match kind {
        "r" => Some(Place::Reg(byte(numbered(number)?)?)),
        "s" => Some(Place::Slot(numbered(number)?)),
        "i" => Some(Place::Incoming(numbered(number)?)),
        _ => None,
    }
}

/// Puts the places of a text behind others.
fn push_places(all: &mut Seq<Place>, text: &str) -> io::Result<()> {
    for word in text.split_whitespace() {
        match place_of(word) {
            Some(place) => all.push(place).map_err(no_memory)?,
            None => return Err(refused("no place")),
        }
    }
    Ok(())
}

/// The places of a text.
pub fn places_of(alloc: Global, text: &str) -> io::Result<Seq<Place>> {
    let mut all = Seq::new(alloc);
    push_places(&mut all, text)?;
    Ok(all)
}

/// An op that reads and writes temporaries.
fn plain_op(name: &str, a: u32, b: u32, c: u32, d: u32) -> Option<Op> {
    match name {
        "const" => Some(Op::Const {
            to: a,
            value: b.cast_signed(),
        }),
        "copy" => Some(Op::Copy { to: a, from: b }),
        "unary" => Some(Op::Unary {
            to: a,
            op: byte(b)?,
            from: c,
        }),
        "binary" => Some(Op::Binary {
            to: a,
            op: byte(b)?,
            left: c,
            right: d,
        }),
        "getglobal" => Some(Op::GlobalGet { to: a, slot: b }),
        "setglobal" => Some(Op::GlobalSet { slot: a, from: b }),
        "return" => Some(Op::Return { from: a }),
        "jump" => Some(Op::Jump { target: a }),
        "branch" => Some(Op::Branch { when: a, target: b }),
        _ => heap_op(name, a, b, c),
    }
}

/// An op on objects, arrays and texts.
fn heap_op(name: &str, a: u32, b: u32, c: u32) -> Option<Op> {
    match name {
        "getfield" => Some(Op::FieldGet {
            to: a,
            object: b,
            field: c,
        }),
        "setfield" => Some(Op::FieldSet {
            object: a,
            field: b,
            from: c,
        }),
        "getitem" => Some(Op::ItemGet {
            to: a,
            array: b,
            index: c,
        }),
        "setitem" => Some(Op::ItemSet {
            array: a,
            index: b,
            from: c,
        }),
        "length" => Some(Op::Length { to: a, array: b }),
        "pop" => Some(Op::Pop { to: a, array: b }),
        "text" => Some(Op::TextOf { to: a, text: b }),
        "object" => Some(Op::MakeObject { to: a, class: b }),
        "array" => Some(Op::MakeArray { to: a, room: b }),
        "handler" => Some(Op::HandlerOf { to: a, function: b }),
        _ => None,
    }
}

/// An op that calls or asks.
fn call_op(name: &str, to: u32, b: u32, args: Seq<u32>) -> Option<Op> {
    match name {
        "call" => Some(Op::Call {
            to,
            function: b,
            args,
        }),
        "slot" => Some(Op::CallSlot { to, slot: b, args }),
        "ask" => Some(Op::Ask {
            to,
            service: byte(b)?,
            args,
        }),
        _ => None,
    }
}

/// The numbers from the third on.
fn args_of(alloc: Global, numbers: &[i32]) -> io::Result<Seq<u32>> {
    let mut all = Seq::new(alloc);
    for number in numbers.iter().skip(2) {
        all.push(number.cast_unsigned()).map_err(no_memory)?;
    }
    Ok(all)
}

/// An op by its name and numbers.
fn op_of(alloc: Global, name: &str, n: &[i32]) -> io::Result<Option<Op>> {
    if n.is_empty() {
        return Ok(None);
    }
    match plain_op(name, at(n, 0), at(n, 1), at(n, 2), at(n, 3)) {
        Some(op) => Ok(Some(op)),
        None => Ok(call_op(name, at(n, 0), at(n, 1), args_of(alloc, n)?)),
    }
}

/// Puts an op by its text behind others.
fn push_op(alloc: Global, all: &mut Seq<Op>, text: &str) -> io::Result<()> {
    let (name, rest) = text.split_once(' ').unwrap_or((text, ""));
    let numbers = numbers(alloc, rest)?;
    match op_of(alloc, name, numbers.as_slice())? {
        Some(op) => all.push(op).map_err(no_memory),
        None => Err(refused("no op")),
    }
}

/// The ops of a text.
fn ops_of(alloc: Global, text: &str) -> io::Result<Seq<Op>> {
    let mut all = Seq::new(alloc);
    for part in text.split(';') {
        push_op(alloc, &mut all, part.trim())?;
    }
    Ok(all)
}

/// A function by its numbers of parameters, locals, operands and outgoing words, and its ops.
pub fn function_of(alloc: Global, head: &str, code: &str) -> io::Result<Function> {
    let ops = ops_of(alloc, code)?;
    let n = numbers(alloc, head)?;
    Ok(Function {
        params: at(n.as_slice(), 0),
        locals: at(n.as_slice(), 1),
        operands: at(n.as_slice(), 2),
        outgoing: at(n.as_slice(), 3),
        ops,
    })
}
