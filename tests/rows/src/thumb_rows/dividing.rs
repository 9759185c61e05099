// The division routine on the machine.

use crate::thumb_rows::refusals::refused;
use armv6m_machine::{Machine, Turn};
use std::alloc::{AllocError, Global};
use std::io;

/// The routine stands here, which is no multiple of 4.
const ENTRY: u32 = 18;

/// And comes back here.
const BACK: u32 = 16;

/// More instructions than a division may take.
const MOST: u32 = 512;

/// The image's first words: the base, main's code address, and where a function returns; then a halfword.
const HEAD: [u8; 18] = [0, 0x40, 0, 0x20, 17, 0, 0, 0, 17, 0, 0, 0, 0, 0, 0, 0, 0, 0];

/// An image with the routine.
pub fn image(alloc: Global) -> Result<Vec<u8>, AllocError> {
    let mut bytes = Vec::new(alloc);
    bytes.extend_from_slice(&HEAD)?;
    bytes.extend_from_slice(thumb_divide::routine())?;
    Ok(bytes)
}

/// Runs the machine up to an address, and counts its instructions; none where it doesn't come there.
fn run_to(machine: &mut Machine, address: u32) -> Option<u32> {
    for count in 0..MOST {
        if machine.registers().pc == address {
            return Some(count);
        }
        match machine.step() {
            Turn::Went => {}
            Turn::Service(_) | Turn::Fault(_, _) => return None,
        }
    }
    None
}

/// Divides on the machine: the quotient, the remainder, and how many instructions that took.
fn divided(machine: &mut Machine, dividend: i32, divisor: i32) -> Option<(i32, i32, u32)> {
    let mut registers = machine.registers();
    registers.r[0] = dividend.cast_unsigned();
    registers.r[1] = divisor.cast_unsigned();
    registers.lr = BACK + 1;
    registers.pc = ENTRY;
    machine.set_registers(registers);
    let count = run_to(machine, BACK)?;
    let [quotient, remainder, ..] = machine.registers().r;
    Some((quotient.cast_signed(), remainder.cast_signed(), count))
}

/// The dividend and the divisor of a row.
fn operands(asked: &str) -> Option<(i32, i32)> {
    let (dividend, divisor) = asked.split_once(' ')?;
    Some((dividend.parse().ok()?, divisor.parse().ok()?))
}

/// Writes quotient, remainder and instructions, or a dash where the routine doesn't come back.
pub fn write_divided(text: &mut String, machine: &mut Machine, asked: &str) -> io::Result<()> {
    let Some((dividend, divisor)) = operands(asked) else {
        return Err(refused("no two numbers"));
    };
    match divided(machine, dividend, divisor) {
        Some((quotient, remainder, count)) => write!(text, "{quotient} {remainder} {count}\n")?,
        None => text.push_str("-\n")?,
    }
    Ok(())
}
