// The pieces of expressions and statements. A head is an operator as it is written, or a word.

use crate::parse_rows::operators::{assignment, bump, infix, let_word, prefix};
use crate::parse_rows::parts::{Part, Parts, alone, followed, list, pair, single};
use sts_syntax::{Binding, Body, Expr, Form, Node, Param, Stmt};

/// An expression that has its parts in a list.
fn call<'a>(at: u32, node: &'a Node) -> Parts<'a> {
    match node {
        Node::Call(callee, args) => pair(
            "call",
            at,
            Part::Expr(callee),
            Part::Exprs(args.as_slice()),
        ),
        Node::SuperCall(None, args) => single("super", at, Part::Exprs(args.as_slice())),
        Node::SuperCall(Some(name), args) => pair(
            "super.",
            at,
            Part::Name(*name),
            Part::Exprs(args.as_slice()),
        ),
        Node::Make(class, args) => pair(
            "new",
            at,
            Part::Name(*class),
            Part::Exprs(args.as_slice()),
        ),
        Node::Items(items) => single("list", at, Part::Exprs(items.as_slice())),
        Node::Handler(body) => single(
            if body.arrow { "=>" } else { "function" },
            at,
            Part::Body(body),
        ),
        _ => alone(Part::Word("no expression")),
    }
}

/// An expression with operators, or a member or an item of another.
fn operation<'a>(at: u32, node: &'a Node) -> Parts<'a> {
    match node {
        Node::Unary(op, a) => single(prefix(*op), at, Part::Expr(a)),
        Node::Binary(op, a, b) => pair(infix(*op), at, Part::Expr(a), Part::Expr(b)),
        Node::Both(a, b) => pair("&&", at, Part::Expr(a), Part::Expr(b)),
        Node::Either(a, b) => pair("||", at, Part::Expr(a), Part::Expr(b)),
        Node::Choice(test, a, b) => list(
            "?",
            at,
            [
                Part::Expr(test),
                Part::Expr(a),
                Part::Expr(b),
                Part::Nothing,
            ],
        ),
        Node::Set(op, target, a) => pair(assignment(*op), at, Part::Expr(target), Part::Expr(a)),
        Node::Bump { target, by, late } => single(bump(*by, *late), at, Part::Expr(target)),
        Node::Member(a, name) => pair(".", at, Part::Expr(a), Part::Name(*name)),
        Node::Item(a, index) => pair("item", at, Part::Expr(a), Part::Expr(index)),
        _ => call(at, node),
    }
}

/// The pieces of an expression.
pub fn expression<'a>(e: &'a Expr) -> Parts<'a> {
    let at = Part::Place(e.at);
    match &e.node {
        Node::Num(value) => followed(Part::Number(*value), at),
        Node::Text(text) => followed(Part::Text(*text), at),
        Node::Truth(true) => followed(Part::Word("true"), at),
        Node::Truth(false) => followed(Part::Word("false"), at),
        Node::Null => followed(Part::Word("null"), at),
        Node::This => followed(Part::Word("this"), at),
        Node::Name(name) => followed(Part::Name(*name), at),
        _ => operation(e.at, &e.node),
    }
}

/// The place of a body, its parameters, its result's type where one is written, and its statements.
pub fn body<'a>(body: &'a Body) -> Parts<'a> {
    [
        Part::Apart(body.at),
        Part::Open("params"),
        Part::Params(body.params.as_slice()),
        Part::Close,
        Part::Shape(&body.gives),
        Part::Stmts(body.stmts.as_slice()),
        Part::Nothing,
    ]
}

/// A parameter.
pub fn parameter<'a>(param: &'a Param) -> Parts<'a> {
    let none = Part::Nothing;
    let name = Part::Name(param.name);
    let at = Part::Place(param.at);
    [name, at, Part::Shape(&param.shape), none, none, none, none]
}

fn first<'a>(e: &'a Option<Expr>) -> Part<'a> {
    match e {
        Some(e) => Part::Expr(e),
        None => Part::Nothing,
    }
}

/// A declared name: its type and its initialiser, where they are written.
pub fn binding<'a>(head: &'static str, binding: &'a Binding) -> Parts<'a> {
    [
        Part::Open(head),
        Part::Name(binding.name),
        Part::Place(binding.at),
        Part::Shape(&binding.shape),
        first(&binding.first),
        Part::Close,
        Part::Nothing,
    ]
}

fn maybe_statement<'a>(a: &'a Option<Box<Stmt>>, other: Part<'a>) -> Part<'a> {
    match a {
        Some(a) => Part::Stmt(a),
        None => other,
    }
}

/// A loop.
fn repetition<'a>(at: u32, form: &'a Form) -> Parts<'a> {
    match form {
        Form::While(test, a) => pair("while", at, Part::Expr(test), Part::Stmt(a)),
        Form::DoWhile(a, test) => pair("do", at, Part::Stmt(a), Part::Expr(test)),
        Form::For(first, test, step, a) => list(
            "for",
            at,
            [
                maybe_statement(first, Part::Word("_")),
                Part::Maybe(test),
                Part::Maybe(step),
                Part::Stmt(a),
            ],
        ),
        Form::ForOf {
            fixed,
            name,
            list: all,
            body,
        } => list(
            "of",
            at,
            [
                Part::Word(let_word(*fixed)),
                Part::Name(*name),
                Part::Expr(all),
                Part::Stmt(body),
            ],
        ),
        _ => alone(Part::Word("no statement")),
    }
}

/// The pieces of a statement.
pub fn statement<'a>(a: &'a Stmt) -> Parts<'a> {
    match &a.form {
        Form::Block(all) => single("block", a.at, Part::Stmts(all.as_slice())),
        Form::Let { fixed, each } => single(
            let_word(*fixed),
            a.at,
            Part::Bindings(each.as_slice()),
        ),
        Form::If(test, then, other) => list(
            "if",
            a.at,
            [
                Part::Expr(test),
                Part::Stmt(then),
                maybe_statement(other, Part::Nothing),
                Part::Nothing,
            ],
        ),
        Form::Return(None) => single("return", a.at, Part::Nothing),
        Form::Return(Some(e)) => single("return", a.at, Part::Expr(e)),
        Form::Break => single("break", a.at, Part::Nothing),
        Form::Continue => single("continue", a.at, Part::Nothing),
        Form::Plain(e) => single(";", a.at, Part::Expr(e)),
        Form::Empty => single(";", a.at, Part::Nothing),
        _ => repetition(a.at, &a.form),
    }
}
