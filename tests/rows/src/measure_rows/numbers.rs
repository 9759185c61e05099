// What operators make of two numbers.

use std::alloc::AllocError;
use sts_meaning::apply;
use sts_syntax::operators::{
    DIVIDE, MULTIPLY, REMAINDER, SHIFT_LEFT, SHIFT_RIGHT, SHIFT_RIGHT_UNSIGNED,
};

/// The number of an operator as it is written.
fn operator(written: &str) -> Option<u8> {
    match written {
        "*" => Some(MULTIPLY),
        "/" => Some(DIVIDE),
        "%" => Some(REMAINDER),
        "<<" => Some(SHIFT_LEFT),
        ">>" => Some(SHIFT_RIGHT),
        ">>>" => Some(SHIFT_RIGHT_UNSIGNED),
        _ => None,
    }
}

/// Writes what an operator makes of two numbers, or a dash where the row has no such.
pub fn write_applied(
    line: &mut String,
    left: &str,
    written: &str,
    right: &str,
) -> Result<(), AllocError> {
    match (left.parse(), operator(written), right.parse()) {
        (Ok(left), Some(op), Ok(right)) => {
            let made = apply(op, left, right);
            write!(line, "  {made}\n")
        }
        _ => line.push_str("  -\n"),
    }
}
