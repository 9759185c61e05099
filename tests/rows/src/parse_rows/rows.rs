// Rows as they are written: a word that says what is asked, and the pieces of a text, `expr 3*«(» «a» 3*«)»`.

use bstr::ByteVec;
use std::alloc::{AllocError, Global};

/// What is printed of a tree.
#[derive(Clone, Copy)]
pub enum How {
    /// the tree
    Tree,
    /// the tree with its places
    Places,
    /// no tree, but how many tokens it leaves
    End,
}

/// What is asked of a text.
#[derive(Clone, Copy)]
pub enum Asked {
    /// the longest expression from the first token on
    Expr(How),
    /// the longest statement from the first token on, outside of functions and loops, or inside of one of each
    Stmt { inside: bool, how: How },
    /// the whole text
    Unit(How),
    /// the text cut behind each of its tokens
    Cuts,
    /// the tokens
    Tokens(How),
    /// the names and texts of the first line and then of the second, in the same tables
    Entries,
}

/// A text and what is asked of it.
#[derive(Drop)]
pub struct Row {
    pub asked: Asked,
    pub text: Vec<u8>,
}

/// What the words ask for.
static ASKED: [(&str, Asked); 14] = [
    ("expr", Asked::Expr(How::Tree)),
    ("expr-places", Asked::Expr(How::Places)),
    ("expr-end", Asked::Expr(How::End)),
    (
        "stmt",
        Asked::Stmt {
            inside: false,
            how: How::Tree,
        },
    ),
    (
        "stmt-places",
        Asked::Stmt {
            inside: false,
            how: How::Places,
        },
    ),
    (
        "stmt-end",
        Asked::Stmt {
            inside: false,
            how: How::End,
        },
    ),
    (
        "inside",
        Asked::Stmt {
            inside: true,
            how: How::Tree,
        },
    ),
    ("unit", Asked::Unit(How::Tree)),
    ("unit-places", Asked::Unit(How::Places)),
    ("unit-end", Asked::Unit(How::End)),
    ("cuts", Asked::Cuts),
    ("tokens", Asked::Tokens(How::Tree)),
    ("tokens-places", Asked::Tokens(How::Places)),
    ("entries", Asked::Entries),
];

fn asked_of(word: &str) -> Option<Asked> {
    for (name, asked) in &ASKED {
        if *name == word {
            return Some(*asked);
        }
    }
    None
}

/// How many times a piece stands in the text: as the number before its `*` says, or else once.
fn times(count: &str) -> Option<usize> {
    match count.trim().split_once('*') {
        Some((number, "")) => number.parse().ok(),
        Some(_) => None,
        None => if count.trim().is_empty() {
            Some(1)
        } else {
            None
        },
    }
}

/// The bytes of all pieces. In a piece `\n`, `\r`, `\t`, `\0`, `\\` and `\x` with two digits stand for a byte.
fn text_of(alloc: Global, pieces: &str) -> Result<Option<Vec<u8>>, AllocError> {
    let mut text = Vec::new(alloc);
    for piece in pieces.split_terminator('»') {
        let Some((count, written)) = piece.split_once('«') else {
            return Ok(None);
        };
        let Some(times) = times(count) else {
            return Ok(None);
        };
        let bytes = Vec::unescape_bytes(alloc, written)?;
        for _time in 0..times {
            text.extend_from_slice(bytes.as_slice())?;
        }
    }
    Ok(Some(text))
}

/// The row that a line is, if it is one.
pub fn row_of(alloc: Global, line: &str) -> Result<Option<Row>, AllocError> {
    let Some((word, pieces)) = line.split_once(' ') else {
        return Ok(None);
    };
    let Some(asked) = asked_of(word) else {
        return Ok(None);
    };
    match text_of(alloc, pieces)? {
        Some(text) => Ok(Some(Row { asked, text })),
        None => Ok(None),
    }
}
