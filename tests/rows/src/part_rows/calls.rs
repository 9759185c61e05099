// The calls of a runtime by name, each where its conditions hold.

use board_world::Event;
use fiber_runtime::{Runtime, Why};
use fork_on_block::{again, fork, invoke, leave, nest, unnest};

/// Where the stack region ends.
const TOP: u32 = 0x2000_4000;
/// Where it begins.
const STACK: u32 = 0x2000_3000;

fn event(value: u16) -> Event {
    Event {
        source: 50,
        value: i32::from(value),
    }
}

/// The running fiber's event value and listener; 0 and none where nobody runs.
pub fn event_of(runtime: &Runtime) -> (i32, Option<u32>) {
    if runtime.is_running() {
        (runtime.event_value(), runtime.listener())
    } else {
        (0, None)
    }
}

/// The running fiber blocks, where it has a record and stands inside.
fn block(runtime: &mut Runtime, why: Why) -> bool {
    let sp = runtime.registers().sp;
    let base = runtime.base();
    if sp % 4 != 0 || base % 4 != 0 || sp < STACK || sp > base || base > TOP {
        return false;
    }
    match runtime.running() {
        None => false,
        Some(_) => {
            runtime.block(why, 0);
            true
        }
    }
}

/// A word more on the running fiber's stack.
fn push(runtime: &mut Runtime, word: u16) -> bool {
    let mut registers = runtime.registers();
    if registers.sp < STACK + 4 {
        return false;
    }
    registers.sp -= 4;
    runtime.set_registers(registers);
    runtime.machine().set_word(registers.sp, u32::from(word))
}

/// Makes a call with its numbers, of which those that it hasn't are 0. False where its conditions don't hold, where it is refused, and where there is none of this name.
pub fn make(runtime: &mut Runtime, verb: &str, first: u16, second: u16) -> bool {
    match verb {
        "spawn" => runtime.spawn(u32::from(first)).is_ok(),
        "due" => {
            runtime.wake_due(u32::from(first));
            true
        }
        "wake" => {
            runtime.wake_waiters(event(first));
            true
        }
        "pause" => block(runtime, Why::Pause(i32::from(first))),
        "wait" => block(runtime, Why::Wait(event(first))),
        "push" => push(runtime, first),
        _ if runtime.is_running() => running(runtime, verb, first, second),
        _ => idle(runtime, verb, first, second),
    }
}

/// The same where a fiber runs.
fn running(runtime: &mut Runtime, verb: &str, first: u16, second: u16) -> bool {
    match verb {
        "end" => end(runtime),
        "leave" => without_record(runtime, false),
        "fork" => without_record(runtime, true),
        "nest" => nest(runtime).is_ok(),
        "again" => {
            again(runtime, u32::from(first), event(second));
            true
        }
        "value" => {
            runtime.set_event_value(i32::from(first));
            true
        }
        "listener" => {
            runtime.set_listener(u32::from(first));
            true
        }
        _ => false,
    }
}

/// The running fiber ends, where it has a record.
fn end(runtime: &mut Runtime) -> bool {
    match runtime.running() {
        Some(_) => {
            runtime.end();
            true
        }
        None => false,
    }
}

/// The running fiber, where it has no record, gets one or ends.
fn without_record(runtime: &mut Runtime, forks: bool) -> bool {
    match runtime.running() {
        Some(_) => false,
        None if forks => fork(runtime).is_ok(),
        None => {
            leave(runtime);
            true
        }
    }
}

/// The same where no fiber runs.
fn idle(runtime: &mut Runtime, verb: &str, first: u16, second: u16) -> bool {
    match verb {
        "resume" => match runtime.raiser_sp() {
            None => runtime.resume(),
            Some(_) => false,
        },
        "invoke" => {
            invoke(runtime, u32::from(first), event(second));
            true
        }
        "unnest" => unnest(runtime),
        _ => false,
    }
}
