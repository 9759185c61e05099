// What is wrong with files.

use input_hints::{InputKind, input_fault};
use std::alloc::Global;
use std::io;
use std::io::ErrorKind;

fn kind_of(name: &str) -> InputKind {
    match name {
        "class" => InputKind::Class,
        "arrivals" => InputKind::Arrivals,
        _ => InputKind::Script,
    }
}

/// Writes the line and the sentence of the fault of a file, whose kind and whose bytes in hexadecimal digits are given; `-` where none is found.
pub fn write_fault(alloc: Global, text: &mut String, asked: &str) -> io::Result<()> {
    let mut words = asked.split(' ');
    let kind = kind_of(words.next().unwrap_or(""));
    let Ok(bytes) = hex::decode(alloc, words.next().unwrap_or("")) else {
        return Err(io::Error::new(ErrorKind::InvalidData, "no bytes in hexadecimal digits"));
    };
    match input_fault(alloc, kind, &bytes)? {
        None => text.push('-')?,
        Some(fault) => {
            let sentence = String::from_utf8_lossy(alloc, &fault.sentence)?;
            write!(text, "{}\t{}", fault.line, sentence.as_str())?;
        }
    }
    Ok(())
}
