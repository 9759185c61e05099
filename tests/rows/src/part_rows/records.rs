// All records taken, and one given back and taken again.

use crate::part_rows::refusals::{no_memory, refused};
use fiber_pool::Pool;
use std::alloc::{AllocError, Global};
use std::io;
use sts_base::NoMemory;
use thumb_code::Registers;

const REGISTERS: Registers = Registers {
    r: [9; 13],
    sp: 0x2000_3FF8,
    lr: 0x11,
    pc: 0x40,
    flags: 2,
};

/// Takes 25 records: how many were given, before how many of those there were as many records as given ones, and how many there are then.
fn taken(alloc: Global) -> Result<(usize, usize, usize), NoMemory> {
    let mut pool = Pool::new(alloc)?;
    let mut given = 0usize;
    let mut told = 0usize;
    for nth in 0..25usize {
        if pool.live() == nth {
            told = told.saturating_add(1);
        }
        if pool.claim().is_some() {
            given = given.saturating_add(1);
        }
    }
    Ok((given, told, pool.live()))
}

/// What a record keeps: how many words, the event value and the listener.
#[derive(Clone, Copy)]
struct Kept {
    words: usize,
    value: i32,
    listener: Option<u32>,
}

/// A record that was filled, with its base and SP, and the one that is claimed once it was released.
#[derive(Clone, Copy)]
struct Again {
    base: u32,
    sp: u32,
    filled: Kept,
    live: usize,
    next: Kept,
}

/// A record that is filled, released and claimed again; none where there is none.
fn claim_again(alloc: Global) -> Result<Option<Again>, NoMemory> {
    let mut pool = Pool::new(alloc)?;
    let Some(key) = pool.claim() else {
        return Ok(None);
    };
    pool.save(key, REGISTERS, 0x2000_4000, &[7, 8]);
    pool.set_value(key, -5);
    pool.set_listener(key, Some(3));
    let (registers, base) = pool.kept(key);
    let filled = Kept {
        words: pool.words(key),
        value: pool.value(key),
        listener: pool.listener(key),
    };
    pool.release(key);
    let live = pool.live();
    let Some(key) = pool.claim() else {
        return Ok(None);
    };
    let next = Kept {
        words: pool.words(key),
        value: pool.value(key),
        listener: pool.listener(key),
    };
    Ok(Some(Again {
        base,
        sp: registers.sp,
        filled,
        live,
        next,
    }))
}

/// Writes what a record keeps.
fn write_kept(text: &mut String, kept: Kept) -> Result<(), AllocError> {
    let Kept {
        words,
        value,
        listener,
    } = kept;
    write!(text, "words {words} value {value} listener {listener:?}\n")
}

/// Writes what is kept in a record that was filled, how many live once it was released, and what is kept in the same when it is claimed again.
fn write_again(text: &mut String, again: Again) -> Result<(), AllocError> {
    let Again {
        base,
        sp,
        filled,
        live,
        next,
    } = again;
    write!(text, "base {base:08x} sp {sp:08x} ")?;
    write_kept(text, filled)?;
    write!(text, "{live} live, then ")?;
    write_kept(text, next)
}

/// Writes of `taken` how many records of 25 there are, and else what becomes of one that is released.
pub fn write_records(alloc: Global, text: &mut String, asked: &str) -> io::Result<()> {
    if asked == "taken" {
        let (given, told, live) = taken(alloc).map_err(no_memory)?;
        write!(text, "{given} given, {told} told, {live} live\n")?;
        return Ok(());
    }
    match claim_again(alloc).map_err(no_memory)? {
        Some(again) => write_again(text, again)?,
        None => return Err(refused("no record")),
    }
    Ok(())
}
