// The bytes that a row spells.

use std::alloc::{AllocError, Global};

/// Appends a piece, in which `%HH` is the byte HH.
fn append(bytes: &mut Vec<u8>, piece: &str) -> Result<(), AllocError> {
    for (nth, part) in piece.split('%').enumerate() {
        if nth == 0 {
            bytes.extend_from_slice(part.as_bytes())?;
        } else if let Some((digits, rest)) = part.split_at_checked(2) {
            bytes.push(u8::from_str_radix(digits, 16).unwrap_or(b'?'))?;
            bytes.extend_from_slice(rest.as_bytes())?;
        }
    }
    Ok(())
}

/// Appends a piece so many times, as `N*PIECE` says.
fn append_repeated(bytes: &mut Vec<u8>, repeated: &str) -> Result<(), AllocError> {
    if let Some((count, piece)) = repeated.split_once('*') {
        let count: u32 = count.parse().unwrap_or(0);
        for _ in 0..count {
            append(bytes, piece)?;
        }
    }
    Ok(())
}

/// Appends what a row's text spells.
fn append_all(bytes: &mut Vec<u8>, text: &str) -> Result<(), AllocError> {
    for (nth, part) in text.split('<').enumerate() {
        if nth == 0 {
            append(bytes, part)?;
        } else if let Some((repeated, rest)) = part.split_once('>') {
            append_repeated(bytes, repeated)?;
            append(bytes, rest)?;
        }
    }
    Ok(())
}

/// The bytes that a row's text spells.
pub fn spelled(alloc: Global, text: &str) -> Result<Vec<u8>, AllocError> {
    let mut bytes = Vec::new(alloc);
    append_all(&mut bytes, text)?;
    Ok(bytes)
}
