// The limits of listeners and events, and a listener that begins again.

use crate::part_rows::refusals::no_memory;
use board_world::{Event, Listener};
use message_bus::{Bus, Raised};
use std::alloc::{AllocError, Global};
use std::io;
use sts_base::NoMemory;

/// A listener for every event of source 50.
fn listener(mode: i32) -> Listener {
    Listener {
        source: 50,
        value: 0,
        handler: 7,
        mode,
    }
}

fn event(value: i32) -> Event {
    Event { source: 50, value }
}

/// Of 33 listeners, of modes from 0 on, how many are taken, how many there are then, and the 32nd and the 33rd.
#[derive(Clone, Copy)]
struct Limits {
    taken: u32,
    count: usize,
    last: Option<Listener>,
    beyond: Option<Listener>,
}

fn fill(alloc: Global) -> Result<Limits, NoMemory> {
    let mut bus = Bus::new(alloc)?;
    let mut taken = 0u32;
    for mode in 0..33 {
        if bus.listen(listener(mode)).is_ok() {
            taken = taken.saturating_add(1);
        }
    }
    Ok(Limits {
        taken,
        count: bus.count(),
        last: bus.listener(31),
        beyond: bus.listener(32),
    })
}

/// Of 33 events, of values from 0 on, how many wait, how many of these come in order, and what comes then.
fn queued(alloc: Global) -> Result<(u32, u32, Option<Event>), NoMemory> {
    let mut bus = Bus::new(alloc)?;
    let mut waiting = 0u32;
    for value in 0..33 {
        if bus.raise(event(value)) == Raised::Queued {
            waiting = waiting.saturating_add(1);
        }
    }
    let mut in_order = 0u32;
    for value in 0..32 {
        if bus.next() == Some(event(value)) {
            in_order = in_order.saturating_add(1);
        }
    }
    Ok((waiting, in_order, bus.next()))
}

/// The event with which the first listener begins again at the end of its activity. It lives on then.
fn again(bus: &mut Bus) -> Option<Event> {
    bus.again(0)
}

/// Whether a listener of mode 16 begins with event 1, is busy at events 2 and 3, begins again with each of them at its ends and then doesn't, and begins with event 4.
fn begins_again(alloc: Global) -> Result<bool, NoMemory> {
    let mut bus = Bus::new(alloc)?;
    if bus.listen(listener(16)) != Ok(()) {
        return Ok(false);
    }
    if !bus.begins(event(1)) {
        return Ok(false);
    }
    if bus.dispatch(event(1)) != 1 {
        return Ok(false);
    }
    if bus.begins(event(2)) {
        return Ok(false);
    }
    if bus.dispatch(event(2)) != 0 {
        return Ok(false);
    }
    if bus.dispatch(event(3)) != 0 {
        return Ok(false);
    }
    let Some(first) = again(&mut bus) else {
        return Ok(false);
    };
    let Some(second) = again(&mut bus) else {
        return Ok(false);
    };
    if first != event(2) || second != event(3) || again(&mut bus).is_some() {
        return Ok(false);
    }
    Ok(bus.begins(event(4)))
}

fn write_listener(text: &mut String, listener: Option<Listener>) -> Result<(), AllocError> {
    match listener {
        Some(
            Listener {
                source,
                value,
                handler,
                mode,
            },
        ) => write!(text, " {source} {value} {handler} {mode}"),
        None => text.push_str(" none"),
    }
}

fn write_event(text: &mut String, event: Option<Event>) -> Result<(), AllocError> {
    match event {
        Some(Event { source, value }) => write!(text, " {source} {value}"),
        None => text.push_str(" none"),
    }
}

fn write_limits(text: &mut String, limits: &Limits) -> Result<(), AllocError> {
    let Limits { taken, count, .. } = *limits;
    write!(text, "{taken} taken, {count} there:")?;
    write_listener(text, limits.last)?;
    write_listener(text, limits.beyond)?;
    text.push('\n')
}

/// Writes what becomes of 33 `listeners`, of 33 `events`, and of one that is busy.
pub fn write_listeners(alloc: Global, text: &mut String, asked: &str) -> io::Result<()> {
    match asked {
        "limit" => write_limits(text, &fill(alloc).map_err(no_memory)?)?,
        "events" => {
            let (waiting, in_order, next) = queued(alloc).map_err(no_memory)?;
            write!(text, "{waiting} wait, {in_order} in order, then")?;
            write_event(text, next)?;
            text.push('\n')?;
        }
        _ => {
            let again = begins_again(alloc).map_err(no_memory)?;
            write!(text, "begins again: {again}\n")?;
        }
    }
    Ok(())
}
