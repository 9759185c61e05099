// Words that are sent to ports, and ports that are unplugged.

use crate::part_rows::refusals::{no_memory, refused};
use board_ports::{Device, MemoryDevice, Plugs, Sent, SureDevice};
use std::alloc::{AllocError, Global};
use std::io;
use sts_base::{NoMemory, Seq};

/// A device with room for so many words, whose write of this number is to fail.
fn memory(alloc: Global, room: usize, failing: u64) -> Result<MemoryDevice, NoMemory> {
    let mut calls = Seq::new(alloc);
    calls.push(failing)?;
    MemoryDevice::new(alloc, room, calls)
}

fn write_sent(text: &mut String, sent: Sent) -> Result<(), AllocError> {
    match sent {
        Sent::Went => text.push_str("went\n"),
        Sent::Nobody => text.push_str("nobody\n"),
        Sent::Lost => text.push_str("lost\n"),
    }
}

/// Sends a word to a port at each moment from 0 on.
fn write_words<D: Device>(
    text: &mut String,
    plugs: &mut Plugs<D>,
    words: &[(usize, u32)],
) -> Result<(), AllocError> {
    for (moment, (port, word)) in (0u32..1000).zip(words) {
        write!(text, "{moment} {port} {word} ")?;
        write_sent(text, plugs.send(*port % 4, moment, *word))?;
    }
    Ok(())
}

/// Writes what a device tells of its log.
fn write_log<D: Device>(text: &mut String, device: &D) -> Result<(), AllocError> {
    text.push_str("log")?;
    for at in 0..4 {
        if let Some((moment, word)) = device.logged(at) {
            write!(text, " {moment}:{word}")?;
        }
    }
    text.push('\n')
}

fn write_logs<D: Device>(text: &mut String, places: &[Option<D>]) -> Result<(), AllocError> {
    for place in places {
        match place {
            Some(device) => write_log(text, device)?,
            None => text.push_str("none\n")?,
        }
    }
    Ok(())
}

/// Two devices and a place where none stands, and no fourth place.
fn places_of(
    alloc: Global,
    first: MemoryDevice,
    second: MemoryDevice,
) -> Result<Vec<Option<MemoryDevice>>, AllocError> {
    let mut places = Vec::new(alloc);
    places.push(Some(first))?;
    places.push(Some(second))?;
    places.push(None)?;
    Ok(places)
}

/// Two devices with room for so many words, whose writes of these numbers are to fail.
fn plugs_of(
    alloc: Global,
    (room, failing): (usize, u64),
    (second_room, second_failing): (usize, u64),
) -> io::Result<Plugs<MemoryDevice>> {
    let first = memory(alloc, room, failing).map_err(no_memory)?;
    let second = memory(alloc, second_room, second_failing).map_err(no_memory)?;
    Ok(Plugs::new(places_of(alloc, first, second)?))
}

fn write_filled(text: &mut String, plugs: &mut Plugs<MemoryDevice>) -> Result<(), AllocError> {
    let words = [(0, 1), (1, 104), (0, 0), (0, 5), (1, 105), (2, 3), (3, 1)];
    write_words(text, plugs, &words)?;
    write_words(text, plugs, &[(1, 106), (1, 107)])
}

/// At port 0 a device whose second write fails, at port 1 one with room for two words, at port 2 none, and no port 3.
fn write_memory(alloc: Global, text: &mut String) -> io::Result<()> {
    let mut plugs = plugs_of(alloc, (3, 2), (2, 0))?;
    write_filled(text, &mut plugs)?;
    write_logs(text, &plugs.into_places())?;
    Ok(())
}

fn write_between(text: &mut String, plugs: &mut Plugs<MemoryDevice>) -> Result<(), AllocError> {
    write_words(text, plugs, &[(0, 1), (1, 104)])?;
    plugs.unplug(1);
    plugs.unplug(2);
    plugs.unplug(3);
    write_words(text, plugs, &[(1, 105), (0, 2)])
}

/// The same where port 1 is unplugged behind the first words, and so are ports where nothing stands.
fn write_unplugged(alloc: Global, text: &mut String) -> io::Result<()> {
    let mut plugs = plugs_of(alloc, (3, 9), (3, 9))?;
    write_between(text, &mut plugs)?;
    write_logs(text, &plugs.into_places())?;
    Ok(())
}

/// Devices of two kinds, in boxes.
fn write_boxes(alloc: Global, text: &mut String) -> io::Result<()> {
    let mut places: Vec<Option<Box<dyn Device>>> = Vec::new(alloc);
    places.push(Some(Box::new(alloc, SureDevice::new())?))?;
    let second = memory(alloc, 3, 0).map_err(no_memory)?;
    places.push(Some(Box::new(alloc, second)?))?;
    let mut plugs = Plugs::new(places);
    write_words(text, &mut plugs, &[(0, 7), (1, 8), (1, 9)])?;
    write_logs(text, &plugs.into_places())?;
    Ok(())
}

/// Writes what becomes of words to devices that fail, to ports that are unplugged, and to boxes.
pub fn write_places(alloc: Global, text: &mut String, asked: &str) -> io::Result<()> {
    match asked {
        "memory" => write_memory(alloc, text),
        "unplugged" => write_unplugged(alloc, text),
        "boxes" => write_boxes(alloc, text),
        _ => Err(refused("no such places")),
    }
}
