// One row, and its answer.

use crate::measure_rows::deep_types::drop_shape;
use crate::measure_rows::interface::{write_call, write_constant};
use crate::measure_rows::library::write_library;
use crate::measure_rows::measured::write_measures;
use crate::measure_rows::numbers::write_applied;
use std::alloc::{AllocError, Global};

/// Writes what is printed behind a row; nothing behind one that asks for nothing.
pub fn write_answer(alloc: Global, line: &mut String, row: &str) -> Result<(), AllocError> {
    let mut words = row.split(' ');
    let first = words.next().unwrap_or("");
    let second = words.next().unwrap_or("");
    let third = words.next().unwrap_or("");
    let fourth = words.next().unwrap_or("");
    match first {
        "call" => write_call(line, second, third),
        "constant" => write_constant(line, second, third),
        "apply" => write_applied(line, second, third, fourth),
        "measure" => write_measures(alloc, line, second),
        "library" => write_library(alloc, line),
        "shape" => {
            drop_shape(alloc)?;
            line.push_str("  dropped\n")
        }
        _ => Ok(()),
    }
}
