// The pieces of whole texts.

use crate::parse_rows::parts::{Part, Parts, alone, followed};
use sts_syntax::{Item, Member, Unit};

/// A list with a head and two pieces.
fn headed<'a>(head: &'static str, a: Part<'a>, b: Part<'a>) -> Parts<'a> {
    let none = Part::Nothing;
    [Part::Open(head), a, b, Part::Close, none, none, none]
}

/// A member of a class.
pub fn member<'a>(member: &'a Member) -> Parts<'a> {
    match member {
        Member::Field(field) => alone(Part::Binding("field", field)),
        Member::Method { name, body } => headed("method", Part::Name(*name), Part::Body(body)),
        Member::Constructor(body) => headed("constructor", Part::Body(body), Part::Nothing),
    }
}

/// The base of a class with its place. A class without a base has the place 0 there, and nothing is shown of it.
pub fn base<'a>(base: Option<u32>, at: u32) -> Parts<'a> {
    match base {
        Some(name) => {
            let none = Part::Nothing;
            let name = Part::Name(name);
            let at = Part::Place(at);
            [
                Part::Open("extends"),
                name,
                at,
                Part::Close,
                none,
                none,
                none,
            ]
        }
        None => alone(if at == 0 {
            Part::Nothing
        } else {
            Part::Apart(at)
        }),
    }
}

/// A class, a function or a statement of the main program.
pub fn item<'a>(item: &'a Item) -> Parts<'a> {
    match item {
        Item::Class {
            at,
            name,
            base,
            base_at,
            members,
        } => [
            Part::Open("class"),
            Part::Name(*name),
            Part::Place(*at),
            Part::Base(*base, *base_at),
            Part::Members(members.as_slice()),
            Part::Close,
            Part::Nothing,
        ],
        Item::Function { name, body } => headed("function", Part::Name(*name), Part::Body(body)),
        Item::Stmt(a) => alone(Part::Stmt(a)),
    }
}

/// A program, each part of it on a line.
pub fn unit<'a>(unit: &'a Unit) -> Parts<'a> {
    followed(Part::Word("program"), Part::Items(unit.items.as_slice()))
}
