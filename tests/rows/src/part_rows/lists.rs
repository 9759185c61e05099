// Who wakes when, and in which order.

use crate::part_rows::refusals::{no_memory, refused};
use board_world::Event;
use fiber_queues::Queues;
use std::alloc::{AllocError, Global};
use std::io;
use sts_base::NoMemory;

/// Wake times, and keys in the order in which they come; none where nobody comes.
#[derive(Clone, Copy)]
struct Woken {
    times: [Option<u32>; 2],
    woken: [Option<usize>; 4],
    ready: [Option<usize>; 5],
}

/// Four sleepers, of whom two wake at one moment: the least wake time, and that behind a waking of all that are due at 5.
fn sleepers(alloc: Global) -> Result<Woken, NoMemory> {
    let mut queues = Queues::new(alloc)?;
    queues.sleep(9, 5);
    queues.sleep(3, 5);
    queues.sleep(1, 4);
    queues.sleep(2, 6);
    let first = queues.next_wake();
    queues.wake_due(5);
    let then = queues.next_wake();
    let a = queues.next();
    let b = queues.next();
    let c = queues.next();
    let d = queues.next();
    Ok(Woken {
        times: [first, then],
        woken: [None; 4],
        ready: [a, b, c, d, None],
    })
}

fn wanted(source: i32, value: i32) -> Event {
    Event { source, value }
}

/// Three waiters, for an event with its value, for any event of a source, and for a value of any source, behind one who is ready.
fn waiters(alloc: Global) -> Result<Woken, NoMemory> {
    let mut queues = Queues::new(alloc)?;
    queues.wait(8, wanted(1, 3));
    queues.wait(6, wanted(2, 0));
    queues.wait(7, wanted(0, 3));
    queues.ready(4);
    let time = queues.next_wake();
    let first = queues.wake_waiter(wanted(1, 3));
    let second = queues.wake_waiter(wanted(1, 3));
    let third = queues.wake_waiter(wanted(1, 3));
    let last = queues.wake_waiter(wanted(2, -5));
    let a = queues.next();
    let b = queues.next();
    let c = queues.next();
    let d = queues.next();
    let e = queues.next();
    Ok(Woken {
        times: [time, None],
        woken: [first, second, third, last],
        ready: [a, b, c, d, e],
    })
}

/// Writes wake times, who was woken, and who is ready.
fn write_woken(text: &mut String, all: &Woken) -> Result<(), AllocError> {
    let Woken {
        times,
        woken,
        ready,
    } = all;
    write!(text, "{times:?} {woken:?} {ready:?}\n")
}

/// Writes what `sleepers` or `waiters` come to.
pub fn write_lists(alloc: Global, text: &mut String, asked: &str) -> io::Result<()> {
    let woken = match asked {
        "sleepers" => sleepers(alloc),
        "waiters" => waiters(alloc),
        _ => return Err(refused("no such lists")),
    };
    write_woken(text, &woken.map_err(no_memory)?)?;
    Ok(())
}
