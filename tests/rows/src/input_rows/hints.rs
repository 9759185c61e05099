// What refusals mean.

use near_names::meaning_at;
use refusal_hints::{Explanation, hints_of};
use std::alloc::{AllocError, Global};
use std::io;
use std::io::ErrorKind;

/// A word as a number, and 0 where it is none.
fn number(word: Option<&str>) -> u32 {
    match word {
        Some(word) => word.parse().unwrap_or(0),
        None => 0,
    }
}

/// Writes the sentence, the example and the open bracket, a tab between them.
fn write_said(text: &mut String, said: Explanation) -> Result<(), AllocError> {
    let Explanation {
        sentence,
        example,
        opened,
    } = said;
    write!(text, "{sentence}\t{example}\t")?;
    match opened {
        Some((line, column)) => write!(text, "{line} {column}"),
        None => text.push('-'),
    }
}

/// What is said of a code at a line and a column of a text in hexadecimal digits.
pub fn write_hint(alloc: Global, text: &mut String, asked: &str) -> io::Result<()> {
    let mut words = asked.split(' ');
    let code = number(words.next());
    let line = number(words.next());
    let column = number(words.next());
    let Ok(bytes) = hex::decode(alloc, words.next().unwrap_or("")) else {
        return Err(io::Error::new(ErrorKind::InvalidData, "no bytes in hexadecimal digits"));
    };
    write_said(text, hints_of(code).explain(&bytes, line, column))?;
    Ok(())
}

/// Writes the word that is meant otherwise where a refusal by a code at a line and a column of a text in hexadecimal digits has its place, a space, and the name that is meant; `-` where none is.
pub fn write_meant(alloc: Global, text: &mut String, asked: &str) -> io::Result<()> {
    let mut words = asked.split(' ');
    let code = number(words.next());
    let line = number(words.next());
    let column = number(words.next());
    let Ok(bytes) = hex::decode(alloc, words.next().unwrap_or("")) else {
        return Err(io::Error::new(ErrorKind::InvalidData, "no bytes in hexadecimal digits"));
    };
    match meaning_at(alloc, code, &bytes, line, column)? {
        None => text.push('-')?,
        Some(meant) => {
            let word = String::from_utf8_lossy(alloc, meant.word)?;
            let name = String::from_utf8_lossy(alloc, meant.name)?;
            write!(text, "{} {}{}", word.as_str(), meant.front, name.as_str())?;
        }
    }
    Ok(())
}
