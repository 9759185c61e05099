// What a larger piece consists of.

use crate::parse_rows::nodes::{binding, body, expression, parameter, statement};
use crate::parse_rows::parts::{Part, Parts, alone, followed};
use crate::parse_rows::units::{base, item, member, unit};

/// The first of a list and the others: nothing of an empty one.
fn list_pieces<'a>(part: Part<'a>) -> Parts<'a> {
    match part {
        Part::Exprs([first, others @ ..]) => followed(Part::Expr(first), Part::Exprs(others)),
        Part::Stmts([first, others @ ..]) => followed(Part::Stmt(first), Part::Stmts(others)),
        Part::Params([first, others @ ..]) => { followed(Part::Param(first), Part::Params(others)) }
        Part::Bindings([first, others @ ..]) => followed(
            Part::Binding("name", first),
            Part::Bindings(others),
        ),
        Part::Members([first, others @ ..]) => {
            followed(Part::Member(first), Part::Members(others))
        }
        Part::Items([first, others @ ..]) => {
            let none = Part::Nothing;
            let first = Part::Item(first);
            let others = Part::Items(others);
            [Part::Line, first, others, none, none, none, none]
        }
        _ => alone(Part::Nothing),
    }
}

/// The pieces of a piece, in their order: nothing of one that is written as it stands.
pub fn pieces<'a>(part: Part<'a>) -> Parts<'a> {
    match part {
        Part::Expr(e) => expression(e),
        Part::Maybe(Some(e)) => alone(Part::Expr(e)),
        Part::Maybe(None) => alone(Part::Word("_")),
        Part::Stmt(a) => statement(a),
        Part::Body(whole) => body(whole),
        Part::Param(param) => parameter(param),
        Part::Binding(head, declared) => binding(head, declared),
        Part::Unit(whole) => unit(whole),
        Part::Item(part) => item(part),
        Part::Base(name, at) => base(name, at),
        Part::Member(part) => member(part),
        _ => list_pieces(part),
    }
}
