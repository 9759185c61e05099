//! Images of HEX texts, byte for byte, and texts of images.

use crate::tool_rows::folders::wanting;
use hex_image::{HexRefused, read_hex, write_hex};
use std::alloc::Global;
use std::io;
use std::io::Write;

/// Writes how many bytes an image has, and those that aren't 0xFF, each run of them with its place.
fn show_image<W: Write>(out: &mut W, image: &[u8]) -> io::Result<()> {
    write!(out, "{} bytes", image.len())?;
    let mut before = 0xFF;
    for (at, byte) in image.iter().enumerate() {
        if *byte != 0xFF && before == 0xFF {
            write!(out, " at {at}:")?;
        }
        if *byte != 0xFF {
            write!(out, " {byte:02x}")?;
        }
        before = *byte;
    }
    out.write_all(b"\n")
}

fn show_read<W: Write>(alloc: Global, out: &mut W, text: &str) -> io::Result<()> {
    match read_hex(alloc, text.as_bytes()) {
        Ok(image) => show_image(out, &image),
        Err(HexRefused::Image(code)) => writeln!(out, "image refused {}", code.number()),
        Err(HexRefused::NoMemory) => out.write_all(b"no memory\n"),
    }
}

fn show_written<W: Write>(alloc: Global, out: &mut W, image: &[u8]) -> io::Result<()> {
    let text = write_hex(alloc, image).map_err(wanting)?;
    out.write_all(&text)
}

/// A full image, written and read.
fn show_full<W: Write>(alloc: Global, out: &mut W) -> io::Result<()> {
    let image = vec![in alloc; 0x5Au8; 262_144]?;
    let text = write_hex(alloc, &image).map_err(wanting)?;
    writeln!(out, "{} bytes of text", text.len())?;
    match read_hex(alloc, &text) {
        Ok(back) if back == image => out.write_all(b"the same image\n"),
        _ => out.write_all(b"another image\n"),
    }
}

// What srec_cat 1.64 and GNU objcopy 2.40 (for x86-64, then for ARM) wrote for the same 40 bytes, at 0, 0, 0xFFF0, 0xFFF0, 0, 0xFFF0, 0x2FFF0 and 0.
const PEERS: [&str; 8] = [
    ":020000040000FA\n\
             :20000000030A11181F262D343B424950575E656C737A81888F969DA4ABB2B9C0C7CED5DCF0\n\
             :08002000E3EAF1F8FF060D14FC\n\
             :00000001FF\n",
    ":020000020000FC\n\
             :20000000030A11181F262D343B424950575E656C737A81888F969DA4ABB2B9C0C7CED5DCF0\n\
             :08002000E3EAF1F8FF060D14FC\n\
             :00000001FF\n",
    ":020000040000FA\n\
             :20FFF000030A11181F262D343B424950575E656C737A81888F969DA4ABB2B9C0C7CED5DC01\n\
             :020000040001F9\n\
             :08001000E3EAF1F8FF060D140C\n\
             :00000001FF\n",
    ":020000020000FC\n\
             :10FFF000030A11181F262D343B424950575E656C89\n\
             :020000021000EC\n\
             :10000000737A81888F969DA4ABB2B9C0C7CED5DC78\n\
             :08001000E3EAF1F8FF060D140C\n\
             :00000001FF\n",
    ":10000000030A11181F262D343B424950575E656C78\r\n\
             :10001000737A81888F969DA4ABB2B9C0C7CED5DC68\r\n\
             :08002000E3EAF1F8FF060D14FC\r\n\
             :00000001FF\r\n",
    ":10FFF000030A11181F262D343B424950575E656C89\r\n\
             :020000021000EC\r\n\
             :10000000737A81888F969DA4ABB2B9C0C7CED5DC78\r\n\
             :08001000E3EAF1F8FF060D140C\r\n\
             :040000030000FFF00A\r\n\
             :00000001FF\r\n",
    ":020000022000DC\r\n\
             :10FFF000030A11181F262D343B424950575E656C89\r\n\
             :020000023000CC\r\n\
             :10000000737A81888F969DA4ABB2B9C0C7CED5DC78\r\n\
             :08001000E3EAF1F8FF060D140C\r\n\
             :040000032000FFF0EA\r\n\
             :00000001FF\r\n",
    ":10000000030A11181F262D343B424950575E656C78\r\n\
             :10001000737A81888F969DA4ABB2B9C0C7CED5DC68\r\n\
             :08002000E3EAF1F8FF060D14FC\r\n\
             :0400000300000011E8\r\n\
             :00000001FF\r\n",
];

/// Texts over the end of 64 KB: before a base, by paragraphs, by blocks.
const WRAPS: [&str; 3] = [
    ":02FFFF000102FD\n:00000001FF\n",
    ":020000020000FC\n:02FFFF000102FD\n:00000001FF\n",
    ":020000040000FA\n:02FFFF000102FD\n:00000001FF\n",
];

/// What other programs wrote is read; records wrap by paragraphs alone; small images and a full one are written.
pub fn show<W: Write>(alloc: Global, out: &mut W) -> io::Result<()> {
    for text in PEERS {
        show_read(alloc, out, text)?;
    }
    for text in WRAPS {
        show_read(alloc, out, text)?;
    }
    show_written(alloc, out, b"")?;
    show_written(alloc, out, b"\x01\x02\x03\x04")?;
    show_written(
        alloc,
        out,
        b"\x03\x0a\x11\x18\x1f\x26\x2d\x34\x3b\x42\x49\x50\x57\x5e\x65\x6c\x73",
    )?;
    show_full(alloc, out)
}
