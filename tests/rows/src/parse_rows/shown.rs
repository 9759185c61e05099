// Shows a tree as nested lists: `(+ a b)`, and with places `(+@0 a@0 b@4)`.

use crate::parse_rows::lexed::write_entry;
use crate::parse_rows::parts::Part;
use crate::parse_rows::pieces::pieces;
use std::alloc::{AllocError, Global};
use sts_base::Tables;
use sts_syntax::{Expr, Shape, Stmt, Unit};

/// A tree that can be shown.
pub trait Tree: Drop {
    fn part<'a>(&'a self) -> Part<'a>;
}

impl Tree for Expr {
    fn part<'a>(&'a self) -> Part<'a> {
        Part::Expr(self)
    }
}

impl Tree for Stmt {
    fn part<'a>(&'a self) -> Part<'a> {
        Part::Stmt(self)
    }
}

impl Tree for Unit {
    fn part<'a>(&'a self) -> Part<'a> {
        Part::Unit(self)
    }
}

/// With what a tree is shown.
#[derive(Clone, Copy)]
pub struct Ways<'a> {
    pub tables: &'a Tables,
    /// whether places are shown
    pub places: bool,
}

fn write_place(line: &mut String, ways: Ways<'_>, at: u32) -> Result<(), AllocError> {
    if ways.places {
        write!(line, "@{at}")
    } else {
        Ok(())
    }
}

/// Writes a place that stands by itself.
fn write_apart(line: &mut String, ways: Ways<'_>, at: u32) -> Result<(), AllocError> {
    if ways.places {
        write!(line, " @{at}")
    } else {
        Ok(())
    }
}

/// Takes the `[]` off a type, and counts them.
fn item_of<'a>(shape: &'a Shape) -> (&'a Shape, usize) {
    let mut item = shape;
    let mut lists: usize = 0;
    while let Shape::List(held) = item {
        item = held;
        lists = lists.saturating_add(1);
    }
    (item, lists)
}

/// Writes a type that is no list.
fn write_item(line: &mut String, ways: Ways<'_>, item: &Shape) -> Result<(), AllocError> {
    match item {
        Shape::Number => line.push_str(" :number"),
        Shape::Boolean => line.push_str(" :boolean"),
        Shape::Text => line.push_str(" :string"),
        Shape::Nothing => line.push_str(" :void"),
        Shape::Named { at, name } => {
            line.push_str(" :")?;
            write_entry(line, &ways.tables.names, *name)?;
            write_place(line, ways, *at)
        }
        Shape::List(_) => Ok(()),
    }
}

/// Writes a type as a program does, behind a `:`, if one is written.
fn write_shape(line: &mut String, ways: Ways<'_>, shape: &Option<Shape>) -> Result<(), AllocError> {
    let Some(shape) = shape else {
        return Ok(());
    };
    let (item, lists) = item_of(shape);
    write_item(line, ways, item)?;
    for _list in 0..lists {
        line.push_str("[]")?;
    }
    Ok(())
}

fn write_name(line: &mut String, ways: Ways<'_>, name: u32) -> Result<(), AllocError> {
    line.push(' ')?;
    write_entry(line, &ways.tables.names, name)
}

fn write_text(line: &mut String, ways: Ways<'_>, text: u32) -> Result<(), AllocError> {
    line.push_str(" '")?;
    write_entry(line, &ways.tables.texts, text)?;
    line.push('\'')
}

/// Writes a piece that has no pieces of its own, and nothing of another.
fn write_part(line: &mut String, ways: Ways<'_>, part: Part<'_>) -> Result<(), AllocError> {
    match part {
        Part::Open(head) => write!(line, " ({head}"),
        Part::Close => line.push(')'),
        Part::Line => line.push_str("\n   "),
        Part::Word(word) => write!(line, " {word}"),
        Part::Number(value) => write!(line, " {value}"),
        Part::Name(name) => write_name(line, ways, name),
        Part::Text(text) => write_text(line, ways, text),
        Part::Shape(shape) => write_shape(line, ways, shape),
        Part::Place(at) => write_place(line, ways, at),
        Part::Apart(at) => write_apart(line, ways, at),
        _ => Ok(()),
    }
}

/// Puts the pieces of a piece in front of what is still to be written.
fn put<'a>(todo: &mut Vec<Part<'a>>, part: Part<'a>) -> Result<(), AllocError> {
    for part in pieces(part).iter().rev() {
        if !matches!(part, Part::Nothing) {
            todo.push(*part)?;
        }
    }
    Ok(())
}

/// More turns than any tree of a text of at most 65,536 bytes takes.
const TURNS: u32 = 16_777_216;

/// Writes a tree. What is still to be written stands in a list, the next at its end.
pub fn write_tree(
    alloc: Global,
    line: &mut String,
    ways: Ways<'_>,
    tree: Part<'_>,
) -> Result<(), AllocError> {
    let mut todo = vec![in alloc; tree]?;
    for _turn in 0..TURNS {
        let Some(part) = todo.pop() else {
            return Ok(());
        };
        write_part(line, ways, part)?;
        put(&mut todo, part)?;
    }
    Ok(())
}
