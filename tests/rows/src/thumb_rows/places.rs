// Places of four functions, and those that these are given.

use crate::thumb_rows::functions::{function_of, places_of};
use crate::thumb_rows::refusals::{no_memory, refused};
use register_assign::{Place, Placed, assign, check_places};
use std::alloc::{AllocError, Global};
use std::io;

/// The numbers and the ops of a function by its name: `straight` writes four temporaries and passes them on together, `looping` adds up its parameter in a loop, and then one
/// more, `choosing` has five numbers of which four are used in a loop, and `nested` five of which one is used three times in a loop, and three once or more in a loop within it.
fn code_of(name: &str) -> Option<(&'static str, &'static str)> {
    match name {
        "straight" => Some((
            "0 0 4 0",
            "const 0 1 ; const 1 2 ; const 2 3 ; const 3 4 ; ask 0 4 0 1 2 3 ; return 0",
        )),
        "looping" => Some((
            "1 1 2 0",
            "const 1 0 ; binary 1 0 1 0 ; unary 0 0 0 ; branch 0 1 ; const 2 1 ; binary 3 0 1 2 ; return 3",
        )),
        "choosing" => Some((
            "0 5 0 0",
            "const 0 1 ; const 1 2 ; const 2 3 ; const 3 4 ; const 4 5 ; binary 4 0 4 3 ; binary 4 0 4 2 ; binary 4 0 4 1 ; branch 4 5 ; binary 4 0 4 0 ; return 4",
        )),
        "nested" => Some((
            "0 5 0 0",
            "const 0 1 ; const 1 2 ; const 2 3 ; const 3 4 ; const 4 5 ; binary 0 0 0 1 ; binary 0 0 0 1 ; binary 0 0 0 1 ; binary 2 0 2 3 ; binary 2 0 2 4 ; branch 2 8 ; branch 0 5 ; return 2",
        )),
        _ => None,
    }
}

/// The function of a row with its places.
fn placed(alloc: Global, asked: &str) -> io::Result<Placed> {
    let (name, places) = asked.split_once(' ').unwrap_or((asked, ""));
    let Some((head, code)) = code_of(name) else {
        return Err(refused("no function"));
    };
    let function = function_of(alloc, head, code)?;
    Ok(Placed {
        function,
        places: places_of(alloc, places)?,
    })
}

/// Writes a place behind a space.
fn write_place(text: &mut String, place: Place) -> Result<(), AllocError> {
    match place {
        Place::Reg(register) => write!(text, " r{register}"),
        Place::Slot(slot) => write!(text, " s{slot}"),
        Place::Incoming(word) => write!(text, " i{word}"),
    }
}

/// Writes that places are sound, and those that the function is given.
fn write_sound(text: &mut String, given: &[Place]) -> Result<(), AllocError> {
    text.push_str("sound")?;
    for place in given {
        write_place(text, *place)?;
    }
    text.push('\n')
}

/// Writes whether the places of a row are sound, and behind sound ones those that its function is given.
pub fn write_given(alloc: Global, text: &mut String, asked: &str) -> io::Result<()> {
    let placed = placed(alloc, asked)?;
    let sound = check_places(alloc, &placed).map_err(no_memory)?;
    if !sound || !placed.function.is_well_formed() {
        text.push_str("unsound\n")?;
        return Ok(());
    }
    let given = assign(alloc, &placed.function).map_err(no_memory)?;
    write_sound(text, given.places.as_slice())?;
    Ok(())
}
