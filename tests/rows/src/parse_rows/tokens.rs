// Tokens as rows show them.

use crate::parse_rows::lexed::{Lexed, write_bytes, write_entry};
use std::alloc::AllocError;
use sts_base::{Seq, Tables};
use sts_lexer::{Token, TokenKind};

/// The reserved words as they are written, in the order of `Word`.
static WORDS: [&str; 45] = [
    "break",
    "class",
    "const",
    "continue",
    "do",
    "else",
    "extends",
    "false",
    "for",
    "function",
    "if",
    "let",
    "new",
    "null",
    "private",
    "protected",
    "public",
    "return",
    "super",
    "this",
    "true",
    "void",
    "while",
    "case",
    "catch",
    "debugger",
    "default",
    "delete",
    "enum",
    "export",
    "finally",
    "implements",
    "import",
    "in",
    "instanceof",
    "interface",
    "package",
    "static",
    "switch",
    "throw",
    "try",
    "typeof",
    "var",
    "with",
    "yield",
];

/// The marks as they are written, in the order of `Mark`.
static MARKS: [&str; 49] = [
    "{", "}", "(", ")", "[", "]", ";", ",", ".", ":", "?", "=>", "=", "+=", "-=", "*=", "/=", "%=",
    "&=", "|=", "^=", "<<=", ">>=", ">>>=", "==", "!=", "===", "!==", "<", ">", "<=", ">=", "+",
    "-", "*", "/", "%", "&", "|", "^", "~", "!", "&&", "||", "<<", ">>", ">>>", "++", "--",
];

/// Writes a reserved word, and its entry where that is spelled otherwise.
fn write_word(
    line: &mut String,
    spelling: &'static str,
    names: &Seq<Seq<u8>>,
    entry: u32,
) -> Result<(), AllocError> {
    write!(line, "'{spelling}")?;
    match names.get(entry as usize) {
        Some(name) if name.as_slice() == spelling.as_bytes() => Ok(()),
        _ => {
            line.push('=')?;
            write_entry(line, names, entry)
        }
    }
}

/// Writes a mark, and what stands in the text where that is another.
fn write_mark(line: &mut String, spelling: &'static str, written: &[u8]) -> Result<(), AllocError> {
    line.push_str(spelling)?;
    if written == spelling.as_bytes() {
        return Ok(());
    }
    line.push('=')?;
    write_bytes(line, written)
}

/// Writes a text's value between double quotes.
fn write_value(line: &mut String, texts: &Seq<Seq<u8>>, entry: u32) -> Result<(), AllocError> {
    line.push('"')?;
    write_entry(line, texts, entry)?;
    line.push('"')
}

/// Writes a token: `#` and a number, a text's value between double quotes, a name, `'` and a reserved word, a mark, or `.` for the end.
fn write_kind(
    line: &mut String,
    text: &[u8],
    tables: &Tables,
    token: Token,
) -> Result<(), AllocError> {
    match token.kind {
        TokenKind::Num(value) => write!(line, "#{value}"),
        TokenKind::Text(entry) => write_value(line, &tables.texts, entry),
        TokenKind::Name(entry) => write_entry(line, &tables.names, entry),
        TokenKind::Word(found, entry) => write_word(
            line,
            WORDS[found as usize],
            &tables.names,
            entry,
        ),
        TokenKind::Mark(found) => {
            let upto = (token.span.upto as usize).min(text.len());
            let from = (token.span.from as usize).min(upto);
            write_mark(line, MARKS[found as usize], &text[from..upto])
        }
        TokenKind::Finish => line.push('.'),
    }
}

/// Writes all tokens, with a `^` before one that a line break stands before, and with places its span behind each.
pub fn write_tokens(
    line: &mut String,
    text: &[u8],
    lexed: &Lexed,
    places: bool,
) -> Result<(), AllocError> {
    for token in lexed.tokens.as_slice() {
        line.push_str(if token.broken { " ^" } else { " " })?;
        write_kind(line, text, &lexed.tables, *token)?;
        if places {
            write!(line, "@{}..{}", token.span.from, token.span.upto)?;
        }
    }
    Ok(())
}
