// A text that is cut behind each of its tokens.

use crate::parse_rows::lexed::{Lexed, read, write_bytes};
use parse_unit::parse;
use std::alloc::{AllocError, Global};
use sts_base::{Code, Refused, number};
use sts_lexer::TokenKind;
use sts_syntax::Unit;

/// What a cut text comes to.
#[derive(Clone, Copy)]
enum Verdict {
    Program,
    Refused(Code),
    NoMemory,
}

fn verdict_of<T: Drop>(outcome: Result<T, Refused>) -> Verdict {
    match outcome {
        Ok(_) => Verdict::Program,
        Err(Refused::Program { code, at: _ }) => Verdict::Refused(code),
        Err(Refused::NoMemory) => Verdict::NoMemory,
    }
}

fn parsed(alloc: Global, lexed: &Lexed) -> Result<Unit, Refused> {
    if lexed.tokens.len() == 0 {
        return Err(Refused::NoMemory);
    }
    parse(alloc, &lexed.tokens, &lexed.tables)
}

fn judged(alloc: Global, text: &[u8]) -> Verdict {
    match read(alloc, text) {
        Ok(lexed) => verdict_of(parsed(alloc, &lexed)),
        Err(refused) => verdict_of::<u8>(Err(refused)),
    }
}

/// Writes `@` for a program, nothing for no program by `Syntax`, and else the number of the code behind a `!`.
fn write_verdict(line: &mut String, verdict: Verdict) -> Result<(), AllocError> {
    match verdict {
        Verdict::Program => line.push('@'),
        Verdict::Refused(Code::Syntax) => Ok(()),
        Verdict::Refused(code) => write!(line, "!{}", number(code)),
        Verdict::NoMemory => line.push_str(" no memory"),
    }
}

/// Writes the tokens, each with a sign that tells whether the text up to there is a program. It begins with the sign of the empty text, and
/// a `.` stands for the end.
pub fn write_cuts(
    alloc: Global,
    line: &mut String,
    text: &[u8],
    lexed: &Lexed,
) -> Result<(), AllocError> {
    line.push(' ')?;
    write_verdict(line, judged(alloc, b""))?;
    for token in lexed.tokens.as_slice() {
        let upto = (token.span.upto as usize).min(text.len());
        let from = (token.span.from as usize).min(upto);
        line.push(' ')?;
        match token.kind {
            TokenKind::Finish => line.push('.')?,
            _ => write_bytes(line, &text[from..upto])?,
        }
        write_verdict(line, judged(alloc, &text[..upto]))?;
    }
    Ok(())
}
