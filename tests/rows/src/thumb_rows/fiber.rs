// A runtime whose main blocks and is resumed, by a switch or by the runtime itself.

use crate::thumb_rows::refusals::no_memory;
use armv6m_machine::Machine;
use fiber_runtime::{Runtime, Why};
use std::alloc::Global;
use std::io;
use thumb_switch::Switch;

/// Where the stack region begins and ends.
const STACK: u32 = 0x2000_3000;

const TOP: u32 = 0x2000_4000;

/// Word 0 is the end of the stack region, word 1 the code address of main, word 2 where fibers return to; then a NOP.
const IMAGE: [u8; 14] = [0, 0x40, 0, 0x20, 13, 0, 0, 0, 17, 0, 0, 0, 0, 0xbf];

/// A runtime where main is ready.
pub fn started(alloc: Global) -> io::Result<Runtime> {
    let flash = Vec::from_array(alloc, IMAGE)?;
    let machine = Machine::reset(alloc, flash).map_err(no_memory)?;
    Runtime::new(alloc, machine).map_err(no_memory)
}

/// What each word of the stack region is.
#[derive(Clone, Copy)]
pub enum Filled {
    Zeros,
    /// The word at place P is P + 1.
    Numbers,
}

/// The word at a place.
fn word_at(with: Filled, place: usize) -> u32 {
    match with {
        Filled::Zeros => 0,
        Filled::Numbers => (place % 1024) as u32 + 1,
    }
}

/// Fills the stack region.
pub fn fill(runtime: &mut Runtime, with: Filled) {
    let stack = runtime.machine().stack_mut();
    for (place, word) in stack.iter_mut().enumerate() {
        *word = word_at(with, place);
    }
}

/// How many words are others, and the first and the last of them with their places.
#[derive(Clone, Copy)]
pub struct Changes {
    pub count: u32,
    pub at: usize,
    pub word: u32,
    pub end: usize,
    pub last: u32,
}

/// What changed in the stack region since it was filled.
pub fn changed(runtime: &Runtime, with: Filled) -> Option<Changes> {
    let mut all: Option<Changes> = None;
    for (place, word) in runtime.stack().iter().enumerate() {
        if *word != word_at(with, place) {
            all = Some(match all {
                None => Changes {
                    count: 1,
                    at: place,
                    word: *word,
                    end: place,
                    last: *word,
                },
                Some(before) => Changes {
                    count: before.count.saturating_add(1),
                    at: before.at,
                    word: before.word,
                    end: place,
                    last: *word,
                },
            });
        }
    }
    all
}

/// The running fiber has so many words.
pub fn lower(runtime: &mut Runtime, words: u16) {
    let mut registers = runtime.registers();
    registers.sp = TOP - 4 * u32::from(words.min(1024));
    runtime.set_registers(registers);
}

/// The running fiber stands inside the stack region.
fn is_inside(runtime: &Runtime) -> bool {
    let sp = runtime.registers().sp;
    let base = runtime.base();
    sp % 4 == 0 && base % 4 == 0 && sp >= STACK && sp <= base && base <= TOP
}

/// The running fiber blocks for a moment by the switch, where it may.
pub fn block_by(switch: &mut Switch, runtime: &mut Runtime) -> bool {
    if !is_inside(runtime) {
        return false;
    }
    match runtime.running() {
        None => false,
        Some(_) => {
            switch.block(runtime, Why::Pause(1), 0);
            true
        }
    }
}

/// The same by the runtime.
pub fn block(runtime: &mut Runtime) -> bool {
    if !is_inside(runtime) {
        return false;
    }
    match runtime.running() {
        None => false,
        Some(_) => {
            runtime.block(Why::Pause(1), 0);
            true
        }
    }
}

/// The fiber wakes and is resumed by the switch, where it may.
pub fn resume_by(switch: &mut Switch, runtime: &mut Runtime) -> bool {
    runtime.wake_due(1);
    if runtime.is_running() || runtime.raiser_sp().is_some() {
        return false;
    }
    switch.resume(runtime)
}

/// The same by the runtime.
pub fn resume(runtime: &mut Runtime) -> bool {
    runtime.wake_due(1);
    if runtime.is_running() || runtime.raiser_sp().is_some() {
        return false;
    }
    runtime.resume()
}
