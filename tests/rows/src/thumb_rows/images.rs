// Small images, worked by hand.

use crate::thumb_rows::lists::{list, one};
use crate::thumb_rows::refusals::{no_memory, refused};
use flat_ir::{FlatClass, FlatCode, Function, Op};
use image_link::{LinkRefused, link};
use std::alloc::{AllocError, Global};
use std::io;
use sts_base::{NoMemory, Seq, Tables};
use thumb_divide::routine;
use thumb_layout::{Fix, Laid, What};

/// The division routine stands here in the image of `write_small`, behind the image's head and 24 bytes of a function.
const ROUTINE: usize = 40;

/// One function that does nothing but return, and one class of three words with it in a slot.
fn program(alloc: Global) -> Result<FlatCode, NoMemory> {
    let function = Function {
        params: 1,
        locals: 0,
        operands: 0,
        outgoing: 0,
        ops: one(alloc, Op::Return { from: 0 })?,
    };
    let class = FlatClass {
        words: 3,
        slots: one(alloc, 0)?,
    };
    Ok(FlatCode {
        functions: one(alloc, function)?,
        classes: one(alloc, class)?,
        main: 0,
    })
}

fn fix(at: u32, what: What, call: bool) -> Fix {
    Fix { at, what, call }
}

/// A function's code that calls itself and the division routine, and loads a function's, a text's and a class's word.
fn laid(alloc: Global) -> Result<Laid, NoMemory> {
    let fixes = [
        fix(0, What::Function(0), true),
        fix(4, What::Function(4_294_967_295), true),
        fix(12, What::Function(0), false),
        fix(16, What::Text(1), false),
        fix(20, What::Class(0), false),
    ];
    Ok(Laid {
        bytes: list(alloc, &[0; 24])?,
        fixes: list(alloc, &fixes)?,
    })
}

/// The image of that function and the texts `x` and `hi!`.
fn small(alloc: Global) -> Result<Result<Vec<u8>, LinkRefused>, NoMemory> {
    let mut texts = one(alloc, list(alloc, b"x")?)?;
    texts.push(list(alloc, b"hi!")?)?;
    let tables = Tables {
        names: Seq::new(alloc),
        texts,
    };
    let laid = one(alloc, laid(alloc)?)?;
    Ok(link(alloc, &laid, &program(alloc)?, &tables))
}

/// The image of a function of so many bytes of 0, in which nothing is open.
fn plain(alloc: Global, length: usize) -> Result<Result<Vec<u8>, LinkRefused>, NoMemory> {
    let mut bytes = Seq::new(alloc);
    for _ in 0..length {
        bytes.push(0)?;
    }
    let fixes = Seq::new(alloc);
    let tables = Tables {
        names: Seq::new(alloc),
        texts: Seq::new(alloc),
    };
    let laid = one(alloc, Laid { bytes, fixes })?;
    Ok(link(alloc, &laid, &program(alloc)?, &tables))
}

/// Writes bytes in hexadecimal digits, a word a line.
fn write_words(text: &mut String, bytes: &[u8]) -> Result<(), AllocError> {
    for (at, byte) in bytes.iter().enumerate() {
        write!(text, "{byte:02x}")?;
        if at % 4 == 3 {
            text.push('\n')?;
        }
    }
    if bytes.len() % 4 != 0 {
        text.push('\n')?;
    }
    Ok(())
}

/// Writes an image whose division routine is left out where it stands whole, after its first 40 bytes, with the zeros up to the next multiple of 4.
fn write_small(text: &mut String, image: &[u8]) -> io::Result<()> {
    let end = ROUTINE + routine().len();
    if image.len() < end || &image[ROUTINE..end] != routine() {
        return Err(refused("no division routine"));
    }
    write_words(text, &image[..ROUTINE])?;
    text.push_str("the division routine\n")?;
    write_words(text, &image[end.next_multiple_of(4)..])?;
    Ok(())
}

/// Writes the image of a small program (`small`), or how long that of a function of so many bytes is.
pub fn write_image(alloc: Global, text: &mut String, asked: &str) -> io::Result<()> {
    let made = match asked.parse::<usize>() {
        Ok(length) => plain(alloc, length),
        Err(_) => small(alloc),
    };
    match made.map_err(no_memory)? {
        Ok(image) if asked == "small" => write_small(text, image.as_slice()),
        Ok(image) => {
            let length = image.len();
            write!(text, "{length} bytes\n")?;
            Ok(())
        }
        Err(LinkRefused::PastFlash) => {
            text.push_str("past flash\n")?;
            Ok(())
        }
        Err(LinkRefused::NoMemory) => Err(no_memory(NoMemory)),
    }
}
