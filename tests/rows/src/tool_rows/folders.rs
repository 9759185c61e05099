//! Folders in memory.

use std::alloc::Global;
use std::io;
use std::io::{ErrorKind, Write};
use sts_base::{NoMemory, Seq};
use tool_folder::{FetchFault, Folder, Found, MemoryFolder, SureFolder};

/// Want of memory, as an error that main ends with.
pub fn wanting(_: NoMemory) -> io::Error {
    io::Error::from(ErrorKind::OutOfMemory)
}

/// The list of these two numbers.
pub fn numbers(alloc: Global, first: u64, second: u64) -> Result<Seq<u64>, NoMemory> {
    let mut all = Seq::new(alloc);
    all.push(first)?;
    all.push(second)?;
    Ok(all)
}

/// Writes what was found of a file.
pub fn show_found<W: Write>(out: &mut W, found: &Result<Found, FetchFault>) -> io::Result<()> {
    match found {
        Ok(Found::Whole(bytes)) => {
            out.write_all(b"whole ")?;
            out.write_all(bytes)?;
            out.write_all(b"\n")
        }
        Ok(Found::Missing) => out.write_all(b"missing\n"),
        Ok(Found::TooLong) => out.write_all(b"too long\n"),
        Err(FetchFault::Failed) => out.write_all(b"failed\n"),
        Err(FetchFault::NoMemory) => out.write_all(b"no memory\n"),
    }
}

fn folder(alloc: Global) -> Result<MemoryFolder, NoMemory> {
    let mut folder = MemoryFolder::new(alloc, numbers(alloc, 2, 4)?)?;
    folder.add(alloc, "a.ts", b"old")?;
    folder.add(alloc, "a.ts", b"text")?;
    folder.add(alloc, "b.ts", b"")?;
    Ok(folder)
}

fn sure_folder(alloc: Global) -> Result<SureFolder, NoMemory> {
    let mut folder = SureFolder::new(alloc)?;
    folder.add(alloc, "a.ts", b"old")?;
    folder.add(alloc, "a.ts", b"text")?;
    Ok(folder)
}

fn show_fetches<F: Folder, W: Write>(
    alloc: Global,
    out: &mut W,
    folder: &mut F,
    rows: &[(&str, usize)],
) -> io::Result<()> {
    for (name, limit) in rows {
        show_found(out, &folder.fetch(alloc, name, *limit))?;
    }
    Ok(())
}

/// A folder whose second and fourth fetch fail, and one that never fails.
pub fn show<W: Write>(alloc: Global, out: &mut W) -> io::Result<()> {
    let mut folder = folder(alloc).map_err(wanting)?;
    let rows = [
        ("a.ts", 4),
        ("a.ts", 4),
        ("a.ts", 3),
        ("c.ts", 4),
        ("c.ts", 4),
        ("b.ts", 0),
    ];
    show_fetches(alloc, out, &mut folder, &rows)?;
    let mut sure = sure_folder(alloc).map_err(wanting)?;
    show_fetches(
        alloc,
        out,
        &mut sure,
        &[("a.ts", 4), ("a.ts", 3), ("b.ts", 4)],
    )
}
