// What is to be shown of a tree, piece by piece.

use sts_syntax::{Binding, Body, Expr, Item, Member, Param, Shape, Stmt, Unit};

/// A piece of a line. Lists are taken apart from their front.
#[derive(Clone, Copy)]
pub enum Part<'a> {
    Nothing,
    Expr(&'a Expr),
    /// an expression, or `_` for none
    Maybe(&'a Option<Expr>),
    Exprs(&'a [Expr]),
    Stmt(&'a Stmt),
    Stmts(&'a [Stmt]),
    Body(&'a Body),
    Param(&'a Param),
    Params(&'a [Param]),
    /// a declared name in a list with this head
    Binding(&'static str, &'a Binding),
    Bindings(&'a [Binding]),
    Unit(&'a Unit),
    Item(&'a Item),
    Items(&'a [Item]),
    /// the base of a class, if it has one, and the place of its name
    Base(Option<u32>, u32),
    Member(&'a Member),
    Members(&'a [Member]),
    /// begins a list with its head
    Open(&'static str),
    Close,
    /// begins a line
    Line,
    Word(&'static str),
    Number(i32),
    /// a name, by its number
    Name(u32),
    /// the value of a text literal, by its number
    Text(u32),
    /// a type, where one is written
    Shape(&'a Option<Shape>),
    /// the place of what stands before it
    Place(u32),
    /// a place that stands by itself
    Apart(u32),
}

/// The pieces of a larger one, in their order.
pub type Parts<'a> = [Part<'a>; 7];

/// A list with a head, a place and at most four pieces.
pub fn list<'a>(head: &'static str, at: u32, pieces: [Part<'a>; 4]) -> Parts<'a> {
    let [a, b, c, d] = pieces;
    [Part::Open(head), Part::Place(at), a, b, c, d, Part::Close]
}

/// A list with a head, a place and two pieces.
pub fn pair<'a>(head: &'static str, at: u32, a: Part<'a>, b: Part<'a>) -> Parts<'a> {
    list(head, at, [a, b, Part::Nothing, Part::Nothing])
}

/// A list with a head, a place and one piece.
pub fn single<'a>(head: &'static str, at: u32, a: Part<'a>) -> Parts<'a> {
    pair(head, at, a, Part::Nothing)
}

/// A piece, and what comes behind it.
pub fn followed<'a>(first: Part<'a>, next: Part<'a>) -> Parts<'a> {
    let none = Part::Nothing;
    [first, next, none, none, none, none, none]
}

/// No more than one piece.
pub fn alone<'a>(part: Part<'a>) -> Parts<'a> {
    followed(part, Part::Nothing)
}
