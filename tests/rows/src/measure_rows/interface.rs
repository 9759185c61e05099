// Rows of the board's interface.

use std::alloc::AllocError;
use sts_syntax::{
    BaseType, BoardAction, BoardParameter, ServicePlace, Ty, board_call, board_constant,
};

fn parameter_name(parameter: BoardParameter) -> &'static str {
    match parameter {
        BoardParameter::Number => " number",
        BoardParameter::Text => " text",
        BoardParameter::Handler => " handler",
        BoardParameter::Drawing => " drawing",
    }
}

fn type_name(ty: Ty) -> &'static str {
    if ty.depth > 0 {
        return "other";
    }
    match ty.base {
        BaseType::Number => "number",
        BaseType::Boolean => "boolean",
        BaseType::Text => "text",
        BaseType::Nothing => "nothing",
        BaseType::Class(_) | BaseType::Null => "other",
    }
}

/// Writes what stands at the places of a service: `_` for a written argument.
fn write_places(line: &mut String, number: u8, places: &[ServicePlace]) -> Result<(), AllocError> {
    write!(line, "service {number}")?;
    for place in places {
        match place {
            ServicePlace::Written => line.push_str(" _")?,
            ServicePlace::Always(value) => write!(line, " {value}")?,
        }
    }
    Ok(())
}

fn write_action(line: &mut String, action: BoardAction) -> Result<(), AllocError> {
    match action {
        BoardAction::Service(number, places) => write_places(line, number, places),
        BoardAction::Library(function) => write!(line, "library {function}"),
        BoardAction::Repeats => line.push_str("repeats"),
    }
}

/// Writes the row of a call, or a dash where there is none.
pub fn write_call(line: &mut String, space: &str, name: &str) -> Result<(), AllocError> {
    let Some(call) = board_call(space.as_bytes(), name.as_bytes()) else {
        return line.push_str("  -\n");
    };
    line.push_str("  takes")?;
    for parameter in call.takes() {
        line.push_str(parameter_name(*parameter))?;
    }
    write!(line, "; gives {}; ", type_name(call.gives()))?;
    write_action(line, call.action())?;
    line.push('\n')
}

/// Writes the value of a constant, or a dash where there is none.
pub fn write_constant(line: &mut String, space: &str, name: &str) -> Result<(), AllocError> {
    match board_constant(space.as_bytes(), name.as_bytes()) {
        Some(value) => write!(line, "  {value}\n"),
        None => line.push_str("  -\n"),
    }
}
