// Which listeners hear an event, where the clock goes, and lights that turn.

use crate::part_rows::numbers::numbers;
use crate::part_rows::refusals::refused;
use board_world::{Event, Idle, Listener, hits, idle_move, plot};
use std::alloc::Global;
use std::io;

/// Writes whether a listener for a source and a value hears an event of a source with a value.
pub fn write_heard(alloc: Global, text: &mut String, asked: &str) -> io::Result<()> {
    let all = numbers(alloc, asked)?;
    let [source, value, raised_source, raised_value] = all.as_slice() else {
        return Err(refused("no four numbers"));
    };
    let listener = Listener {
        source: *source,
        value: *value,
        handler: 1,
        mode: 16,
    };
    let event = Event {
        source: *raised_source,
        value: *raised_value,
    };
    let heard = hits(listener, event);
    write!(text, "{heard}\n")?;
    Ok(())
}

/// A moment of a row, or none for a dash.
fn moment(word: &str) -> io::Result<Option<u32>> {
    if word == "-" {
        return Ok(None);
    }
    match word.parse::<u32>() {
        Ok(moment) => Ok(Some(moment)),
        Err(_) => Err(refused("no moment")),
    }
}

/// Writes where the clock goes, by the least moment at which somebody wakes, that of the next entry, and the end.
pub fn write_idle(text: &mut String, asked: &str) -> io::Result<()> {
    let mut words = asked.split(' ');
    let wake = moment(words.next().unwrap_or(""))?;
    let entry = moment(words.next().unwrap_or(""))?;
    let Some(end) = moment(words.next().unwrap_or(""))? else {
        return Err(refused("no end"));
    };
    match idle_move(wake, entry, end) {
        Idle::Quiet => text.push_str("quiet\n")?,
        Idle::Script => text.push_str("script\n")?,
        Idle::Jump(to) => write!(text, "jump {to}\n")?,
    }
    Ok(())
}

/// Writes the frame in which a light of a frame is turned off (0), on (1) or over (2).
pub fn write_turned(alloc: Global, text: &mut String, asked: &str) -> io::Result<()> {
    let all = numbers(alloc, asked)?;
    let [frame, x, y, mode] = all.as_slice() else {
        return Err(refused("no four numbers"));
    };
    if !(0..=2).contains(mode) {
        return Err(refused("no mode"));
    }
    let turned = plot(frame.cast_unsigned(), *x, *y, *mode as u8);
    write!(text, "{turned}\n")?;
    Ok(())
}
