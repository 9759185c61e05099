// What a row is answered with.

use crate::type_rows::reading::{Read, no_library, read_text};
use crate::type_rows::shown::{write_declared, write_name, write_refusal};
use derived_types::solve;
use std::alloc::{AllocError, Global};
use sts_base::{NoMemory, Refused, Seq, Tables};
use sts_scope::Declared;
use text_headings::{Scopes, headings, resolve};

/// What a text declares, with all types derived.
fn solved(alloc: Global, text: &Read) -> Result<Declared, Refused> {
    let library = no_library(alloc);
    let mut declared = headings(alloc, &library, &text.unit, &text.tables)?;
    match solve(alloc, &library, &text.unit, &text.tables, &mut declared) {
        Ok(()) => Ok(declared),
        Err(NoMemory) => Err(Refused::NoMemory),
    }
}

/// The types of all declarations, in text order.
fn write_types(alloc: Global, line: &mut String, text: &Read) -> Result<(), AllocError> {
    match solved(alloc, text) {
        Err(refused) => write_refusal(line, refused),
        Ok(declared) => {
            line.push_str(" ")?;
            for d in 0..declared.known.entries().len() {
                write_declared(line, &text.tables, &declared.known, d)?;
            }
            line.push_str("\n")
        }
    }
}

/// How many declarations have a type, and how many have none.
fn write_counts(alloc: Global, line: &mut String, text: &Read) -> Result<(), AllocError> {
    match solved(alloc, text) {
        Err(refused) => write_refusal(line, refused),
        Ok(declared) => {
            let mut typed: usize = 0;
            let mut untyped: usize = 0;
            for d in 0..declared.known.entries().len() {
                match declared.known.kinds().get(d) {
                    Some(Some(_)) => typed = typed.saturating_add(1),
                    _ => untyped = untyped.saturating_add(1),
                }
            }
            write!(line, "  {typed} with a type, {untyped} without\n")
        }
    }
}

fn write_list(
    line: &mut String,
    tables: &Tables,
    word: &str,
    names: &Seq<u32>,
) -> Result<(), AllocError> {
    line.push_str("  ")?;
    line.push_str(word)?;
    for x in names.as_slice() {
        line.push_str(" ")?;
        write_name(line, tables, *x)?;
    }
    line.push_str("\n")
}

fn write_scopes(line: &mut String, tables: &Tables, scopes: &Scopes) -> Result<(), AllocError> {
    write_list(line, tables, "globals", &scopes.globals)?;
    write_list(line, tables, "functions", &scopes.functions)?;
    write_list(line, tables, "classes", &scopes.classes)
}

/// The names of a text.
fn write_names(alloc: Global, line: &mut String, text: &Read) -> Result<(), AllocError> {
    match resolve(alloc, &no_library(alloc), &text.unit, &text.tables) {
        Err(refused) => write_refusal(line, refused),
        Ok(scopes) => write_scopes(line, &text.tables, &scopes),
    }
}

/// How many names a text has.
fn write_sizes(alloc: Global, line: &mut String, text: &Read) -> Result<(), AllocError> {
    match resolve(alloc, &no_library(alloc), &text.unit, &text.tables) {
        Err(refused) => write_refusal(line, refused),
        Ok(scopes) => write!(
            line,
            "  {} globals, {} functions, {} classes\n",
            scopes.globals.len(),
            scopes.functions.len(),
            scopes.classes.len()
        ),
    }
}

/// Functions of which each returns what the next one does; the last one returns 1.
fn chain(alloc: Global, count: usize) -> Result<String, AllocError> {
    let mut text = String::new(alloc);
    for i in 0..count {
        write!(
            text,
            "function f{i}(){{return f{}()}}\n",
            i.saturating_add(1)
        )?;
    }
    write!(text, "function f{count}(){{return 1}}\n")?;
    Ok(text)
}

/// A class, a global and a function, so often.
fn many(alloc: Global, count: usize) -> Result<String, AllocError> {
    let mut text = String::new(alloc);
    for i in 0..count {
        write!(text, "class C{i}{{}}\nlet g{i}=1\nfunction f{i}(){{}}\n")?;
    }
    Ok(text)
}

fn number_in(word: &str) -> usize {
    match word.parse::<u16>() {
        Ok(n) => n as usize,
        Err(_) => 0,
    }
}

/// What stands behind a row; nothing behind a line of another form.
pub fn answer(alloc: Global, row: &str) -> Result<String, AllocError> {
    let mut line = String::new(alloc);
    let (word, rest) = match row.split_once(' ') {
        Some(parts) => parts,
        None => return Ok(line),
    };
    let text = match word {
        "types" | "names" => {
            let mut text = String::new(alloc);
            text.push_str(rest)?;
            text
        }
        "chain" => chain(alloc, number_in(rest))?,
        "many" => many(alloc, number_in(rest))?,
        _ => return Ok(line),
    };
    match read_text(alloc, text.as_str()) {
        Err(refused) => write_refusal(&mut line, refused)?,
        Ok(text) => match word {
            "types" => write_types(alloc, &mut line, &text)?,
            "names" => write_names(alloc, &mut line, &text)?,
            "chain" => write_counts(alloc, &mut line, &text)?,
            _ => write_sizes(alloc, &mut line, &text)?,
        },
    }
    Ok(line)
}
