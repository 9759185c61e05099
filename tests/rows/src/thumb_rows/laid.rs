// Lists of pieces, laid.

use crate::thumb_rows::refusals::{no_memory, refused};
use std::alloc::{AllocError, Global};
use std::io;
use sts_base::{NoMemory, Seq};
use thumb_code::{Instr, decode};
use thumb_layout::{Fix, LayRefused, Piece, What, lay};

/// The two numbers of a word, of which the second may be missing.
fn numbers(text: &str) -> Option<(u32, u32)> {
    match text.split_once(',') {
        Some((first, second)) => Some((first.parse::<u32>().ok()?, second.parse::<u32>().ok()?)),
        None => Some((text.parse::<u32>().ok()?, 0)),
    }
}

/// Whether the instruction does the same wherever it is.
fn is_plain(instr: Instr) -> bool {
    match instr {
        Instr::BCond { .. }
        | Instr::B { .. }
        | Instr::Bl { .. }
        | Instr::LdrPc { .. }
        | Instr::Adr { .. } => false,
        Instr::AddHigh { rd, rm } | Instr::CmpHigh { rd, rm } => rd != 15 && rm != 15,
        Instr::MovHigh { rm, .. } => rm != 15,
        _ => true,
    }
}

/// The thing whose address a word loads.
fn what_of(kind: &str, number: u32) -> Option<What> {
    match kind {
        "f" => Some(What::Function(number)),
        "t" => Some(What::Text(number)),
        "k" => Some(What::Class(number)),
        _ => None,
    }
}

/// A word's piece: an instruction by its halfword, or one of the others by its letter and its numbers.
fn piece_of(word: &str) -> Option<Piece> {
    let (kind, rest) = word.split_at_checked(1)?;
    if kind == "x" {
        let instr = decode(u16::from_str_radix(rest, 16).ok()?, 0)?;
        return if is_plain(instr) {
            Some(Piece::Plain(instr))
        } else {
            None
        };
    }
    let (first, second) = numbers(rest)?;
    match kind {
        "l" => Some(Piece::Label(first)),
        "c" => Some(Piece::CallTo { function: first }),
        "g" if first <= 14 => Some(Piece::Go {
            cond: first as u8,
            label: second,
        }),
        "n" if first < 8 => Some(Piece::Number {
            rd: first as u8,
            value: second,
        }),
        _ if first < 8 => Some(Piece::Address {
            rd: first as u8,
            what: what_of(kind, second)?,
        }),
        _ => None,
    }
}

/// How often a label is among the pieces.
fn times(pieces: &[Piece], wanted: u32) -> usize {
    let mut count: usize = 0;
    for piece in pieces {
        if let Piece::Label(label) = *piece {
            if label == wanted {
                count = count.saturating_add(1);
            }
        }
    }
    count
}

/// Whether each label that is gone to is there once.
fn is_sound(pieces: &[Piece]) -> bool {
    for piece in pieces {
        if let Piece::Go { label, .. } = *piece {
            if times(pieces, label) != 1 {
                return false;
            }
        }
    }
    true
}

/// The pieces of a row.
fn pieces_of(alloc: Global, asked: &str) -> io::Result<Seq<Piece>> {
    let mut pieces = Seq::new(alloc);
    for word in asked.split_whitespace() {
        let piece = piece_of(word).ok_or(refused("no such piece"))?;
        pieces.push(piece).map_err(no_memory)?;
    }
    Ok(pieces)
}

/// A place that is open until linking.
fn write_fix(text: &mut String, fix: Fix) -> Result<(), AllocError> {
    let (kind, number) = match fix.what {
        What::Function(number) => ("f", number),
        What::Text(number) => ("t", number),
        What::Class(number) => ("k", number),
    };
    let at = fix.at;
    let call = if fix.call { "call" } else { "word" };
    write!(text, " {at}:{call}:{kind}{number}")
}

/// The bytes of the row's pieces, and the places that are open.
pub fn write_laid(alloc: Global, text: &mut String, asked: &str) -> io::Result<()> {
    let pieces = pieces_of(alloc, asked)?;
    if !is_sound(pieces.as_slice()) {
        return Err(refused("a label that is gone to is not there once"));
    }
    match lay(alloc, &pieces) {
        Ok(laid) => {
            for byte in laid.bytes.as_slice() {
                write!(text, "{byte:02x}")?;
            }
            for fix in laid.fixes.as_slice() {
                write_fix(text, *fix)?;
            }
            text.push('\n')?;
            Ok(())
        }
        Err(LayRefused::TooLong) => Ok(text.push_str("too long\n")?),
        Err(LayRefused::NoMemory) => Err(no_memory(NoMemory)),
    }
}
