// The machine, by rows of a verb and its numbers. An image is collected and then put into the machine.

use crate::thumb_rows::emulated::write_emulated;
use crate::thumb_rows::refusals::{no_memory, refused};
use crate::thumb_rows::registers;
use armv6m_machine::{Machine, Turn, number};
use hex::FromHex;
use std::alloc::{AllocError, Global};
use std::{io, mem};

/// The bytes of the next image, the machine that rows run, and the one that divides.
#[derive(Drop)]
pub struct Bench {
    image: Vec<u8>,
    machine: Machine,
    divider: Machine,
}

/// The machine with an image.
fn machine_of(alloc: Global, image: Vec<u8>) -> io::Result<Machine> {
    if image.len() > 262_144 {
        return Err(refused("the image is too long"));
    }
    Machine::reset(alloc, image).map_err(no_memory)
}

/// A bench with an empty image, and one for divisions.
pub fn bench_of(alloc: Global, dividing: Vec<u8>) -> io::Result<Bench> {
    let divider = machine_of(alloc, dividing)?;
    let machine = machine_of(alloc, Vec::new(alloc))?;
    Ok(Bench {
        image: Vec::new(alloc),
        machine,
        divider,
    })
}

/// The word of eight hexadecimal digits.
pub fn word(digits: &str) -> io::Result<u32> {
    match <[u8; 4] as FromHex>::from_hex(digits) {
        Ok(bytes) => Ok(u32::from_be_bytes(bytes)),
        Err(_) => Err(refused("not eight hexadecimal digits")),
    }
}

/// Two words with a space between them.
fn two_words(asked: &str) -> io::Result<(u32, u32)> {
    let Some((first, second)) = asked.split_once(' ') else {
        return Err(refused("no two words"));
    };
    Ok((word(first)?, word(second)?))
}

/// Puts the low bytes of each word behind the image.
fn append(image: &mut Vec<u8>, words: &str, bytes: usize) -> io::Result<()> {
    for digits in words.split(' ') {
        let word = word(digits)?;
        for byte in word.to_le_bytes().iter().take(bytes) {
            image.push(*byte)?;
        }
    }
    Ok(())
}

/// Puts so many bytes 0 behind the image.
fn append_zeros(image: &mut Vec<u8>, count: u32) -> io::Result<()> {
    for _ in 0..count {
        image.push(0)?;
    }
    Ok(())
}

/// The machine begins with the image, and the next one is empty.
fn reset(alloc: Global, bench: &mut Bench) -> io::Result<()> {
    let image = mem::replace(&mut bench.image, Vec::new(alloc));
    bench.machine = machine_of(alloc, image)?;
    Ok(())
}

/// Executes one instruction, and writes its answer.
fn write_step(text: &mut String, machine: &mut Machine) -> Result<(), AllocError> {
    let before = machine.registers();
    match machine.step() {
        Turn::Went => text.push_str("went\n"),
        Turn::Service(service) => write!(text, "service {service}\n"),
        Turn::Fault(fault, at) => {
            let same = if machine.registers() == before {
                "same"
            } else {
                "changed"
            };
            let fault = number(fault);
            write!(text, "fault {fault} {at:08x} {same}\n")
        }
    }
}

/// Sets the word at an address, and writes whether that was done.
fn store(
    text: &mut String,
    machine: &mut Machine,
    address: u32,
    word: u32,
) -> Result<(), AllocError> {
    if machine.set_word(address, word) {
        text.push_str("stored\n")
    } else {
        text.push_str("refused\n")
    }
}

/// Writes the word at an address.
fn load(text: &mut String, machine: &Machine, address: u32) -> Result<(), AllocError> {
    match machine.word(address) {
        Some(word) => write!(text, "{word:08x}\n"),
        None => text.push_str("none\n"),
    }
}

/// Sets a stack word by the list that is lent.
fn lend(machine: &mut Machine, place: u32, word: u32) -> io::Result<()> {
    let place = place as usize;
    if place >= 1024 {
        return Err(refused("no such stack word"));
    }
    machine.stack_mut()[place] = word;
    Ok(())
}

/// What is asked with two words.
fn obey_two(text: &mut String, machine: &mut Machine, verb: &str, asked: &str) -> io::Result<()> {
    let (first, second) = two_words(asked)?;
    match verb {
        "set" => registers::set(machine, first, second),
        "store" => store(text, machine, first, second)?,
        "lend" => lend(machine, first, second)?,
        _ => return Err(refused("no such verb")),
    }
    Ok(())
}

/// What is asked with one word.
fn obey_one(text: &mut String, bench: &mut Bench, verb: &str, asked: &str) -> io::Result<()> {
    let asked = word(asked)?;
    match verb {
        "zeros" => append_zeros(&mut bench.image, asked)?,
        "base" => bench.machine.set_base(asked),
        "load" => load(text, &bench.machine, asked)?,
        _ => {
            let register = registers::get(&bench.machine, asked);
            write!(text, "{register:08x}\n")?;
        }
    }
    Ok(())
}

/// Obeys a verb with its words.
pub fn obey(alloc: Global, text: &mut String, bench: &mut Bench, asked: &str) -> io::Result<()> {
    let (verb, words) = asked.split_once(' ').unwrap_or((asked, ""));
    match verb {
        "words" => append(&mut bench.image, words, 4),
        "halves" => append(&mut bench.image, words, 2),
        "reset" => reset(alloc, bench),
        "zeros" | "base" | "load" | "get" => obey_one(text, bench, verb, words),
        "row" => write_emulated(text, &mut bench.machine, words),
        "step" => Ok(write_step(text, &mut bench.machine)?),
        _ => obey_two(text, &mut bench.machine, verb, words),
    }
}

impl Bench {
    /// The machine that divides.
    pub fn divider(&mut self) -> &mut Machine {
        &mut self.divider
    }
}
