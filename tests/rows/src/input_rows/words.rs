// Lists of words, and what they ask for.

use command_line::read_command_line;
use std::alloc::{AllocError, Global};
use std::io;
use std::io::ErrorKind;
use sts_words::Order;

/// Puts the words of a row behind others.
fn push_words(alloc: Global, words: &mut Vec<String>, row: &str) -> Result<(), AllocError> {
    for word in row.split('\t').skip(1) {
        words.push(String::from_str(alloc, word)?)?;
    }
    Ok(())
}

/// The words of a row.
fn words_of(alloc: Global, row: &str) -> Result<Vec<String>, AllocError> {
    let mut words = Vec::new(alloc);
    push_words(alloc, &mut words, row)?;
    Ok(words)
}

/// A flag as it is written.
fn shown(flag: bool, name: &'static str) -> &'static str {
    if flag { name } else { "-" }
}

/// Writes what an order asks for that runs a program or an image.
fn write_run(text: &mut String, order: Order<'_>) -> Result<(), AllocError> {
    match order {
        Order::Run {
            program,
            script,
            budget,
            stats,
            image,
        } => {
            let script = script.unwrap_or("-");
            let stats = shown(stats, "stats");
            let image = shown(image, "image");
            write!(text, "run\t{program}\t{script}\t{budget}\t{stats}\t{image}")
        }
        Order::RunHex {
            image,
            script,
            budget,
        } => {
            let script = script.unwrap_or("-");
            write!(text, "run-hex\t{image}\t{script}\t{budget}")
        }
        _ => write_other(text, order),
    }
}

/// Writes what another order asks for.
fn write_other(text: &mut String, order: Order<'_>) -> Result<(), AllocError> {
    match order {
        Order::Check(name) => write!(text, "check\t{name}"),
        Order::Build(name) => write!(text, "build\t{name}"),
        Order::RunAt {
            program,
            script,
            arrivals,
            budget,
        } => write!(text, "run-at\t{program}\t{script}\t{arrivals}\t{budget}"),
        Order::Class { name, budget } => write!(text, "class\t{name}\t{budget}"),
        Order::Big {
            size,
            budget,
            stats,
        } => {
            let stats = shown(stats, "stats");
            write!(text, "big\t{size}\t{budget}\t{stats}")
        }
        Order::Run { .. } | Order::RunHex { .. } => Ok(()),
    }
}

/// Writes what words ask for, or a dash where they aren't taken.
fn write_asked(alloc: Global, text: &mut String, words: &[String]) -> io::Result<()> {
    match read_command_line(alloc, words) {
        Ok(Some(order)) => write_run(text, order)?,
        Ok(None) => text.push('-')?,
        Err(_) => return Err(io::Error::from(ErrorKind::OutOfMemory)),
    }
    Ok(())
}

/// Reads the words of a row, and writes what they ask for.
pub fn write_words(alloc: Global, text: &mut String, row: &str) -> io::Result<()> {
    let words = words_of(alloc, row)?;
    write_asked(alloc, text, words.as_slice())
}
