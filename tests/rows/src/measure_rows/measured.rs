// The measures of worked functions.

use crate::measure_rows::routines::{
    counts_on, deep, mid, starts_at_one, waits, worker, writes_mid,
};
use std::alloc::{AllocError, Global};
use sts_base::NoMemory;
use sts_syntax::{TypedBody, frame_words, weight};

/// The function of a name, which is light and has few locals.
fn routine_of(alloc: Global, name: &str) -> Result<TypedBody, NoMemory> {
    match name {
        "deep" => deep(alloc),
        "mid" => mid(alloc),
        "writes_mid" => writes_mid(alloc),
        "counts_on" => counts_on(alloc),
        "starts_at_one" => starts_at_one(alloc),
        "waits" => waits(alloc),
        _ => worker(alloc),
    }
}

/// Writes the words of a function's frame, and its weight.
pub fn write_measures(alloc: Global, line: &mut String, name: &str) -> Result<(), AllocError> {
    let Ok(body) = routine_of(alloc, name) else {
        return Err(AllocError);
    };
    let words = frame_words(&body);
    let weight = weight(&body);
    write!(line, "  frame {words}, weight {weight}\n")
}
