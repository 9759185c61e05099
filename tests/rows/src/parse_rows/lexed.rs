// The tokens of a text.

use std::alloc::{AllocError, Global};
use sts_base::{Refused, Seq, Tables};
use sts_lexer::{Token, tokens};

/// The tokens of a text, with the names and the texts that they name by number.
#[derive(Drop)]
pub struct Lexed {
    pub tokens: Seq<Token>,
    pub tables: Tables,
}

/// The tokens of a text, or why it has none.
pub fn read(alloc: Global, text: &[u8]) -> Result<Lexed, Refused> {
    let mut tables = Tables {
        names: Seq::new(alloc),
        texts: Seq::new(alloc),
    };
    let tokens = tokens(alloc, text, &mut tables)?;
    Ok(Lexed { tokens, tables })
}

/// Writes why a text is refused: the code, and if it is wanted the place, in bytes from the start of the text.
pub fn write_refusal(line: &mut String, refused: Refused, places: bool) -> Result<(), AllocError> {
    match refused {
        Refused::Program { code, at } => {
            write!(line, " refused {code:?}")?;
            if places {
                write!(line, " at {at}")
            } else {
                Ok(())
            }
        }
        Refused::NoMemory => line.push_str(" no memory"),
    }
}

/// How a byte is written that is no printed one of ASCII, or is `\` itself.
fn escape(byte: u8) -> Option<&'static str> {
    match byte {
        b'\n' => Some("\\n"),
        b'\r' => Some("\\r"),
        b'\t' => Some("\\t"),
        b'\\' => Some("\\\\"),
        _ => None,
    }
}

fn write_byte(line: &mut String, byte: u8) -> Result<(), AllocError> {
    match escape(byte) {
        Some(escape) => line.push_str(escape),
        None => if byte >= b' ' && byte <= b'~' {
            line.push(char::from(byte))
        } else {
            write!(line, "\\x{byte:02X}")
        },
    }
}

/// Writes bytes: those that are printed ASCII as they are, and the others as `\n`, `\r`, `\t`, or `\x` and two digits.
pub fn write_bytes(line: &mut String, bytes: &[u8]) -> Result<(), AllocError> {
    for byte in bytes {
        write_byte(line, *byte)?;
    }
    Ok(())
}

/// Writes an entry of a table.
pub fn write_entry(
    line: &mut String,
    strings: &Seq<Seq<u8>>,
    entry: u32,
) -> Result<(), AllocError> {
    match strings.get(entry as usize) {
        Some(string) => write_bytes(line, string.as_slice()),
        None => line.push_str("(no entry)"),
    }
}
