// Registers by their numbers: 0 to 12, then SP 13, LR 14, PC 15 and the flags 16.

use armv6m_machine::Machine;

pub fn get(machine: &Machine, register: u32) -> u32 {
    let registers = machine.registers();
    match register {
        0..=12 => registers.r[register as usize],
        13 => registers.sp,
        14 => registers.lr,
        15 => registers.pc,
        _ => u32::from(registers.flags),
    }
}

pub fn set(machine: &mut Machine, register: u32, word: u32) {
    let mut registers = machine.registers();
    match register {
        0..=12 => registers.r[register as usize] = word,
        13 => registers.sp = word,
        14 => registers.lr = word,
        15 => registers.pc = word,
        _ => registers.flags = (word % 16) as u8,
    }
    machine.set_registers(registers);
}
