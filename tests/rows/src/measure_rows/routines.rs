// Functions of worked programs.

use crate::measure_rows::forms::{
    ask, binary, block, call, declare, increment, name, number, one, routine, run, set, two,
};
use std::alloc::Global;
use sts_base::{NoMemory, Seq};
use sts_syntax::build::boxed;
use sts_syntax::operators::{ADD, EQUAL, LESS, MULTIPLY};
use sts_syntax::{BoardCall, Spot, Ty, TypedBody, TypedStmt};

pub fn deep(alloc: Global) -> Result<TypedBody, NoMemory> {
    let mut all = Seq::new(alloc);
    let product = binary(alloc, MULTIPLY, name(Spot::Param(0)), number(3))?;
    all.push(declare(alloc, Spot::Local(0), product)?)?;
    all.push(ask(BoardCall::Pause, one(alloc, number(5))?))?;
    all.push(TypedStmt::Return(Some(name(Spot::Local(0)))))?;
    let params = one(alloc, Ty::NUMBER)?;
    Ok(routine(params, one(alloc, Ty::NUMBER)?, Ty::NUMBER, all))
}

pub fn mid(alloc: Global) -> Result<TypedBody, NoMemory> {
    let mut all = Seq::new(alloc);
    let sum = binary(alloc, ADD, name(Spot::Param(0)), number(1))?;
    all.push(declare(alloc, Spot::Local(0), sum)?)?;
    let found = call(7, one(alloc, name(Spot::Local(0)))?);
    all.push(declare(alloc, Spot::Local(1), found)?)?;
    let product = binary(alloc, MULTIPLY, name(Spot::Local(0)), number(100))?;
    let value = binary(alloc, ADD, product, name(Spot::Local(1)))?;
    all.push(TypedStmt::Return(Some(value)))?;
    let params = one(alloc, Ty::NUMBER)?;
    Ok(routine(params, two(alloc, Ty::NUMBER, Ty::NUMBER)?, Ty::NUMBER, all))
}

pub fn writes_mid(alloc: Global) -> Result<TypedBody, NoMemory> {
    let found = call(8, one(alloc, number(6))?);
    let all = one(alloc, ask(BoardCall::WriteNumber, one(alloc, found)?))?;
    Ok(routine(Seq::new(alloc), Seq::new(alloc), Ty::NOTHING, all))
}

pub fn counts_on(alloc: Global) -> Result<TypedBody, NoMemory> {
    let mut all = Seq::new(alloc);
    all.push(ask(BoardCall::WriteNumber, one(alloc, name(Spot::Param(0)))?))?;
    let sum = binary(alloc, ADD, name(Spot::Param(0)), number(1))?;
    all.push(run(7, one(alloc, sum)?))?;
    let params = one(alloc, Ty::NUMBER)?;
    Ok(routine(params, Seq::new(alloc), Ty::NOTHING, all))
}

pub fn starts_at_one(alloc: Global) -> Result<TypedBody, NoMemory> {
    let all = one(alloc, run(7, one(alloc, number(1))?))?;
    Ok(routine(Seq::new(alloc), Seq::new(alloc), Ty::NOTHING, all))
}

pub fn waits(alloc: Global) -> Result<TypedBody, NoMemory> {
    let args = two(alloc, number(60), number(1))?;
    let all = one(alloc, ask(BoardCall::WaitForEvent, args))?;
    Ok(routine(Seq::new(alloc), Seq::new(alloc), Ty::NOTHING, all))
}

fn worker_turn(alloc: Global) -> Result<TypedStmt, NoMemory> {
    let mut all = Seq::new(alloc);
    let found = call(7, one(alloc, name(Spot::Global(0)))?);
    all.push(set(alloc, None, Spot::Global(0), found)?)?;
    all.push(ask(BoardCall::Pause, one(alloc, number(1))?))?;
    Ok(block(all))
}

fn worker_loop(alloc: Global) -> Result<TypedStmt, NoMemory> {
    let turn = boxed(alloc, worker_turn(alloc)?)?;
    let first = boxed(alloc, declare(alloc, Spot::Local(0), number(0))?)?;
    let test = boxed(
        alloc,
        binary(alloc, LESS, name(Spot::Local(0)), number(10))?,
    )?;
    let step = increment(alloc, Spot::Local(0))?;
    Ok(TypedStmt::For(Some(first), Some(Box::into_inner(test)), Some(step), turn))
}

fn worker_end(alloc: Global) -> Result<TypedStmt, NoMemory> {
    let written = ask(BoardCall::WriteNumber, one(alloc, name(Spot::Global(0)))?);
    let then = boxed(alloc, block(one(alloc, written)?))?;
    let test = binary(alloc, EQUAL, name(Spot::Global(1)), number(5))?;
    Ok(TypedStmt::If(test, then, None))
}

pub fn worker(alloc: Global) -> Result<TypedBody, NoMemory> {
    let mut all = Seq::new(alloc);
    all.push(worker_loop(alloc)?)?;
    all.push(set(alloc, Some(ADD), Spot::Global(1), number(1))?)?;
    all.push(worker_end(alloc)?)?;
    Ok(routine(Seq::new(alloc), one(alloc, Ty::NUMBER)?, Ty::NOTHING, all))
}
