// One instruction from a state of its own, and what an emulator of a Cortex-M core says of it.

use crate::thumb_rows::machines::word;
use crate::thumb_rows::refusals::refused;
use armv6m_machine::{Machine, Turn};
use std::alloc::AllocError;
use std::io;
use thumb_code::Registers;

/// The address of one of the 32 words that an instruction may change: 16 of globals, and 16 round SP.
fn watched(k: u32) -> u32 {
    if k < 16 {
        0x2000_0100 + k * 4
    } else {
        0x2000_3ee0u32.wrapping_add((k - 16).wrapping_mul(4))
    }
}

/// The registers before the instruction: PC, the flags, R0 to R3 and R8 are given.
fn before([pc, flags, r0, r1, r2, r3, r8]: [u32; 7]) -> Registers {
    Registers {
        r: [r0, r1, r2, r3, 4, 5, 6, 7, r8, 9, 10, 11, 12],
        sp: 0x2000_3f00,
        lr: 0x155,
        pc,
        flags: (flags % 16) as u8,
    }
}

/// A sum over the registers that a row doesn't give and the watched words.
fn rest(machine: &Machine) -> u32 {
    let r = machine.registers().r;
    let mut sum = 0u32;
    for k in [4u32, 5, 6, 7, 9, 10, 11, 12] {
        sum = sum.wrapping_add(k.wrapping_mul(r[(k % 13) as usize]));
    }
    for k in 0..32u32 {
        sum = sum.wrapping_add((k + 1).wrapping_mul(machine.word(watched(k)).unwrap_or(0)));
    }
    sum
}

/// Sets the watched words and the registers.
fn begin(machine: &mut Machine, begun: Registers) {
    for k in 0..32u32 {
        machine.set_word(watched(k), (k + 1).wrapping_mul(0x9e37_79b1) | 1);
    }
    machine.set_registers(begun);
}

/// Writes the flags, R0 to R3 and R8, what SP moved by, LR, and what PC moved by.
fn write_registers(
    text: &mut String,
    begun: &Registers,
    behind: &Registers,
) -> Result<(), AllocError> {
    let flags = behind.flags;
    let [r0, r1, r2, r3, _, _, _, _, r8, _, _, _, _] = behind.r;
    write!(
        text,
        " {flags:08x} {r0:08x} {r1:08x} {r2:08x} {r3:08x} {r8:08x}"
    )?;
    let sp = behind.sp.wrapping_sub(begun.sp);
    let lr = behind.lr;
    let pc = behind.pc.wrapping_sub(begun.pc);
    write!(text, " {sp:08x} {lr:08x} {pc:08x}")
}

/// Executes the instruction at PC, and writes whether it went on, the registers behind it, and what the sum over the rest moved by.
fn write_row(text: &mut String, machine: &mut Machine, given: [u32; 7]) -> Result<(), AllocError> {
    let begun = before(given);
    begin(machine, begun);
    let sum = rest(machine);
    match machine.step() {
        Turn::Went => text.push_str("went")?,
        Turn::Service(_) | Turn::Fault(_, _) => text.push_str("stopped")?,
    }
    write_registers(text, &begun, &machine.registers())?;
    let moved = rest(machine).wrapping_sub(sum);
    write!(text, " {moved:08x}\n")
}

/// The seven words of a row.
fn given(words: &str) -> io::Result<[u32; 7]> {
    let mut all = [0u32; 7];
    let mut count = 0usize;
    for digits in words.split(' ') {
        if count >= 7 {
            return Err(refused("more than seven words"));
        }
        all[count] = word(digits)?;
        count += 1;
    }
    if count == 7 {
        Ok(all)
    } else {
        Err(refused("no seven words"))
    }
}

/// Writes what is behind an instruction from the state that the words describe.
pub fn write_emulated(text: &mut String, machine: &mut Machine, words: &str) -> io::Result<()> {
    let given = given(words)?;
    write_row(text, machine, given)?;
    Ok(())
}
