// Files in words.

use arrival_file::Arrival;
use class_file::{ClassFile, Loss, Names};
use event_script::{Act, Entry, Script};
use std::alloc::AllocError;

/// Writes the names of a board.
fn write_names(text: &mut String, names: &Names) -> Result<(), AllocError> {
    let program = str::from_utf8(names.program.as_slice()).unwrap_or("?");
    let script = str::from_utf8(names.script.as_slice()).unwrap_or("?");
    write!(text, "; `{program}` `{script}`")
}

/// Writes a loss.
fn write_loss(text: &mut String, loss: &Loss) -> Result<(), AllocError> {
    let Loss { at, from, to } = *loss;
    write!(text, " {at} {from} {to}")
}

/// Writes how many losses there are, and the first and the last of them.
fn write_losses(text: &mut String, losses: &[Loss]) -> Result<(), AllocError> {
    let count = losses.len();
    write!(text, "; {count} lost")?;
    if let Some(first) = losses.first() {
        write_loss(text, first)?;
    }
    if let [_, .., last] = losses {
        text.push(',')?;
        write_loss(text, last)?;
    }
    Ok(())
}

/// Writes the end of a class, the names of its boards, how many losses there are, and the first and the last of them.
pub fn write_class(text: &mut String, class: &ClassFile) -> Result<(), AllocError> {
    let end = class.end;
    write!(text, "{end}")?;
    for names in class.boards.as_slice() {
        write_names(text, names)?;
    }
    write_losses(text, class.lose.as_slice())
}

/// Writes an act.
fn write_act(text: &mut String, act: &Act) -> Result<(), AllocError> {
    match act {
        Act::Down(button) => write!(text, " down {button}"),
        Act::Up(button) => write!(text, " up {button}"),
        Act::Raise(event) => {
            let source = event.source;
            let value = event.value;
            write!(text, " raise {source} {value}")
        }
        Act::Unplug(port) => write!(text, " unplug {port}"),
    }
}

/// Writes when something happens, and what.
fn write_moment(text: &mut String, at: u32, act: &Act) -> Result<(), AllocError> {
    write!(text, " {at}")?;
    write_act(text, act)
}

/// Writes the end of a script, how many entries there are, and the first and the last of them.
pub fn write_script(text: &mut String, script: &Script) -> Result<(), AllocError> {
    let end = script.end;
    let count = script.entries.len();
    write!(text, "{end}; {count}")?;
    let entries: &[Entry] = script.entries.as_slice();
    if let Some(first) = entries.first() {
        write_moment(text, first.at, &first.act)?;
    }
    if let [_, .., last] = entries {
        text.push(',')?;
        write_moment(text, last.at, &last.act)?;
    }
    Ok(())
}

/// Writes how many arrivals there are, and the first and the last of them.
pub fn write_arrivals(text: &mut String, arrivals: &[Arrival]) -> Result<(), AllocError> {
    let count = arrivals.len();
    write!(text, "{count}")?;
    if let Some(first) = arrivals.first() {
        write_moment(text, first.after, &first.act)?;
    }
    if let [_, .., last] = arrivals {
        text.push(',')?;
        write_moment(text, last.after, &last.act)?;
    }
    Ok(())
}
