// An array that grows until the arena is full.

use crate::part_rows::refusals::{no_memory, refused};
use arena_heap::{Arena, Pushed};
use armv6m_machine::Machine;
use std::alloc::{AllocError, Global};
use std::io;

/// Where the array stands, how many items of 1,024 were put behind it, how many words are used then, what becomes of one more and of one for an array that isn't there, and
/// how many words are used behind them.
#[derive(Clone, Copy)]
struct Grown {
    array: u32,
    done: u32,
    used: u32,
    more: Pushed,
    beside: Pushed,
    after: u32,
}

/// An array of no items grows. Rooms of 4, 8, .. 1024 take 2044 words, and one of 2048 doesn't fit behind them and the header.
fn grow(machine: &mut Machine, arena: &mut Arena) -> Option<Grown> {
    let array = arena.take(4)?;
    let mut done = 0u32;
    for item in 0..1024u32 {
        if arena.push(machine, array, item) == Pushed::Done {
            done = done.saturating_add(1);
        }
    }
    let used = arena.used();
    let more = arena.push(machine, array, 0);
    let beside = arena.push(machine, array.wrapping_add(4), 0);
    Some(Grown {
        array,
        done,
        used,
        more,
        beside,
        after: arena.used(),
    })
}

fn write_pushed(text: &mut String, pushed: Pushed) -> Result<(), AllocError> {
    match pushed {
        Pushed::Done => text.push_str(" done"),
        Pushed::Full => text.push_str(" full"),
        Pushed::Bad => text.push_str(" bad"),
    }
}

fn write_counts(text: &mut String, grown: &Grown) -> Result<(), AllocError> {
    let Grown {
        array,
        done,
        used,
        after,
        ..
    } = *grown;
    write!(text, "at {array:08x}, {done} done, {used} used, then")?;
    write_pushed(text, grown.more)?;
    write_pushed(text, grown.beside)?;
    write!(text, ", {after} used\n")
}

/// Writes the length, the room, the items' address, and the last item.
fn write_array(text: &mut String, machine: &Machine, array: u32) -> Result<(), AllocError> {
    for at in [4u32, 8, 12, 0x1ffc] {
        let word = machine.word(array.wrapping_add(at)).unwrap_or(0);
        write!(text, "{at:04x} {word:08x}\n")?;
    }
    Ok(())
}

/// Writes what an array comes to that grows until the arena is full.
pub fn write_grown(alloc: Global, text: &mut String) -> io::Result<()> {
    let mut machine = Machine::reset(alloc, Vec::new(alloc)).map_err(no_memory)?;
    let mut arena = Arena::new();
    let Some(grown) = grow(&mut machine, &mut arena) else {
        return Err(refused("no four words"));
    };
    write_counts(text, &grown)?;
    write_array(text, &machine, grown.array)?;
    Ok(())
}
