// A runtime, by rows of a verb and its numbers.

use crate::part_rows::calls;
use crate::part_rows::refusals::{no_memory, refused};
use armv6m_machine::{Machine, Turn};
use fiber_runtime::Runtime;
use std::alloc::{AllocError, Global};
use std::io;

/// Word 0 is the end of the stack region, word 1 the code address of main, word 2 where fibers return to; then a NOP.
const IMAGE: [u8; 14] = [0, 0x40, 0, 0x20, 13, 0, 0, 0, 17, 0, 0, 0, 0, 0xbf];

/// A runtime where main is ready.
pub fn runtime_of(alloc: Global) -> io::Result<Runtime> {
    let flash = Vec::from_array(alloc, IMAGE)?;
    let machine = Machine::reset(alloc, flash).map_err(no_memory)?;
    Runtime::new(alloc, machine).map_err(no_memory)
}

/// Who runs: the code address behind PC, SP, the last two words, and what is known besides.
fn write_fiber(text: &mut String, runtime: &mut Runtime) -> Result<(), AllocError> {
    let registers = runtime.registers();
    let code = registers.pc.wrapping_add(1);
    let sp = registers.sp;
    let last = runtime.machine().word(sp);
    let before = runtime.machine().word(sp.wrapping_add(4));
    write!(text, "at {code} sp {sp:08x} words {last:?} {before:?}")?;
    let (value, listener) = calls::event_of(runtime);
    let kept = runtime.running().is_some();
    write!(text, " event {value} listener {listener:?} record {kept} ")
}

/// Who runs, and how many seats are taken and raisers stand.
fn write_all(text: &mut String, runtime: &mut Runtime) -> Result<(), AllocError> {
    if runtime.is_running() {
        write_fiber(text, runtime)?;
    }
    let seats = runtime.seats();
    let raisers = runtime.raisers();
    let wake = runtime.next_wake();
    write!(text, "seats {seats} raisers {raisers} wake {wake:?}\n")
}

fn write_step(text: &mut String, turn: Turn) -> Result<(), AllocError> {
    match turn {
        Turn::Went => text.push_str("went\n"),
        Turn::Service(service) => write!(text, "service {service}\n"),
        Turn::Fault(_, at) => write!(text, "fault {at:08x}\n"),
    }
}

/// A number, and 0 where there is none.
fn number(word: &str) -> io::Result<u16> {
    if word.is_empty() {
        return Ok(0);
    }
    match word.parse::<u16>() {
        Ok(number) => Ok(number),
        Err(_) => Err(refused("no number")),
    }
}

/// Makes a call, and writes where it isn't made.
fn call(text: &mut String, runtime: &mut Runtime, verb: &str, numbers: &str) -> io::Result<()> {
    let (first, second) = numbers.split_once(' ').unwrap_or((numbers, ""));
    let (first, second) = (number(first)?, number(second)?);
    if !calls::make(runtime, verb, first, second) {
        write!(text, "no {verb}\n")?;
    }
    Ok(())
}

/// Obeys a verb with its numbers.
pub fn obey(
    alloc: Global,
    text: &mut String,
    runtime: &mut Runtime,
    asked: &str,
) -> io::Result<()> {
    let (verb, numbers) = asked.split_once(' ').unwrap_or((asked, ""));
    match verb {
        "reset" => *runtime = runtime_of(alloc)?,
        "see" => write_all(text, runtime)?,
        "step" => write_step(text, runtime.step())?,
        _ => call(text, runtime, verb, numbers)?,
    }
    Ok(())
}
