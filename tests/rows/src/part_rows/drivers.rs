// Clicks, frames, and the font.

use crate::part_rows::refusals::{no_memory, refused};
use board_drivers::{Buttons, Display, glyph};
use board_world::Event;
use message_bus::Bus;
use std::alloc::{AllocError, Global};
use std::io;
use sts_base::NoMemory;

/// What a click comes to: whether button 2 and 1 are down in it, and 2 behind it, and the events of the bus.
#[derive(Clone, Copy)]
struct Click {
    down: [bool; 3],
    events: [Option<Event>; 4],
}

/// Button 2 goes down and up at these moments, each time twice.
fn clicked(alloc: Global, down: u32, up: u32) -> Result<Click, NoMemory> {
    let mut bus = Bus::new(alloc)?;
    let mut buttons = Buttons::new();
    buttons.down(2, down, &mut bus);
    buttons.down(2, down.saturating_add(1), &mut bus);
    let within = buttons.is_down(2);
    let other = buttons.is_down(1);
    buttons.up(2, up, &mut bus);
    buttons.up(2, up.saturating_add(1), &mut bus);
    let behind = buttons.is_down(2);
    let a = bus.next();
    let b = bus.next();
    let c = bus.next();
    let d = bus.next();
    Ok(Click {
        down: [within, other, behind],
        events: [a, b, c, d],
    })
}

fn write_event(text: &mut String, event: Option<Event>) -> Result<(), AllocError> {
    match event {
        Some(Event { source, value }) => write!(text, " {source}:{value}"),
        None => text.push_str(" none"),
    }
}

fn write_clicked(text: &mut String, click: &Click) -> Result<(), AllocError> {
    let down = click.down;
    write!(text, "{down:?}")?;
    for event in &click.events {
        write_event(text, *event)?;
    }
    text.push('\n')
}

/// A number of a row.
fn number(word: &str) -> io::Result<u32> {
    match word.parse::<u32>() {
        Ok(number) => Ok(number),
        Err(_) => Err(refused("no number")),
    }
}

/// Writes what a click between two moments comes to.
pub fn write_click(alloc: Global, text: &mut String, asked: &str) -> io::Result<()> {
    let Some((down, up)) = asked.split_once(' ') else {
        return Err(refused("no two moments"));
    };
    let click = clicked(alloc, number(down)?, number(up)?).map_err(no_memory)?;
    write_clicked(text, &click)?;
    Ok(())
}

/// Shows frames one behind the other, and writes of each whether it changed what is shown, and what is shown then.
pub fn write_frames(text: &mut String, asked: &str) -> io::Result<()> {
    let mut display = Display::new();
    for word in asked.split(' ') {
        let changed = display.show(number(word)?);
        let frame = display.frame();
        write!(text, "{changed} {frame}\n")?;
    }
    Ok(())
}

/// The byte of a row.
fn byte(word: &str) -> io::Result<u8> {
    match word.parse::<u8>() {
        Ok(byte) => Ok(byte),
        Err(_) => Err(refused("no byte")),
    }
}

/// Writes the frame of a byte's glyph.
pub fn write_glyph(text: &mut String, asked: &str) -> io::Result<()> {
    let frame = glyph(byte(asked)?);
    write!(text, "{frame}\n")?;
    Ok(())
}

/// Writes the rows of a frame from the top, `#` for a light that is lit.
fn write_lights(text: &mut String, frame: u32) -> Result<(), AllocError> {
    for at in 0..25u32 {
        if at > 0 && at % 5 == 0 {
            text.push('/')?;
        }
        text.push(if frame >> at & 1 == 1 { '#' } else { '.' })?;
    }
    text.push('\n')
}

/// Writes a byte's glyph as a line of the font.
pub fn write_drawn(text: &mut String, asked: &str) -> io::Result<()> {
    let byte = byte(asked)?;
    write!(text, "glyph {byte} ")?;
    write_lights(text, glyph(byte))?;
    Ok(())
}
