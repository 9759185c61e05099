// What a row is answered with.

use crate::parse_rows::cuts::write_cuts;
use crate::parse_rows::entries::write_entries;
use crate::parse_rows::lexed::{Lexed, read, write_refusal};
use crate::parse_rows::rows::{Asked, How, Row, row_of};
use crate::parse_rows::shown::{Tree, Ways, write_tree};
use crate::parse_rows::tokens::write_tokens;
use parse_expr::{parse_expr, parse_stmt};
use parse_unit::parse;
use std::alloc::{AllocError, Global};
use sts_base::Refused;

/// Writes how many tokens of the text stand behind a tree, where there are some. The last token, its end, counts as none.
fn write_end(line: &mut String, lexed: &Lexed, end: usize) -> Result<(), AllocError> {
    match lexed.tokens.len().checked_sub(end) {
        Some(1) => Ok(()),
        Some(left) if left > 1 => write!(line, ", {} left", left - 1),
        _ => line.push_str(", and the end of the text was read"),
    }
}

/// Writes a tree and where it ends, or why there is none.
fn write_outcome<T: Tree>(
    alloc: Global,
    line: &mut String,
    lexed: &Lexed,
    how: How,
    outcome: Result<(T, usize), Refused>,
) -> Result<(), AllocError> {
    let (tree, end) = match outcome {
        Ok(found) => found,
        Err(refused) => return write_refusal(line, refused, !matches!(how, How::End)),
    };
    let ways = Ways {
        tables: &lexed.tables,
        places: matches!(how, How::Places),
    };
    match how {
        How::End => line.push_str(" read")?,
        _ => write_tree(alloc, line, ways, tree.part())?,
    }
    write_end(line, lexed, end)
}

/// A program, which ends before the last token.
fn ended<T: Drop>(outcome: Result<T, Refused>, lexed: &Lexed) -> Result<(T, usize), Refused> {
    match outcome {
        Ok(tree) => Ok((tree, lexed.tokens.len().saturating_sub(1))),
        Err(refused) => Err(refused),
    }
}

/// Writes what is asked of a text that has tokens.
fn write_answer(
    alloc: Global,
    line: &mut String,
    row: &Row,
    lexed: &Lexed,
) -> Result<(), AllocError> {
    let (all, tables) = (&lexed.tokens, &lexed.tables);
    if all.len() == 0 {
        return line.push_str(" no tokens");
    }
    match row.asked {
        Asked::Expr(how) => write_outcome(
            alloc,
            line,
            lexed,
            how,
            parse_expr(alloc, all, tables, 0),
        ),
        Asked::Stmt { inside, how } => {
            let outcome = parse_stmt(alloc, all, tables, 0, inside, inside);
            write_outcome(alloc, line, lexed, how, outcome)
        }
        Asked::Unit(how) => {
            let outcome = ended(parse(alloc, all, tables), lexed);
            write_outcome(alloc, line, lexed, how, outcome)
        }
        Asked::Cuts => write_cuts(alloc, line, row.text.as_slice(), lexed),
        Asked::Tokens(how) => {
            let places = matches!(how, How::Places);
            write_tokens(line, row.text.as_slice(), lexed, places)
        }
        Asked::Entries => write_entries(alloc, line, row.text.as_slice()),
    }
}

/// Writes the line of what a row asks for.
fn write_row(alloc: Global, lines: &mut String, row: &Row) -> Result<(), AllocError> {
    lines.push_str("   ")?;
    match row.asked {
        Asked::Entries => write_entries(alloc, lines, row.text.as_slice())?,
        _ => match read(alloc, row.text.as_slice()) {
            Ok(lexed) => write_answer(alloc, lines, row, &lexed)?,
            Err(refused) => write_refusal(lines, refused, true)?,
        },
    }
    lines.push('\n')
}

/// Writes the lines behind a row: none where the line is no row.
pub fn write_lines(alloc: Global, lines: &mut String, line: &str) -> Result<(), AllocError> {
    match row_of(alloc, line)? {
        Some(row) => write_row(alloc, lines, &row),
        None => Ok(()),
    }
}
