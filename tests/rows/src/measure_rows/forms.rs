// Typed expressions and statements from their parts.

use std::alloc::Global;
use sts_base::{NoMemory, Seq};
use sts_syntax::build::boxed;
use sts_syntax::{
    BoardCall, Callee, Spot, Ty, TypedBinding, TypedBody, TypedExpr, TypedNode, TypedStmt,
};

/// A list of one.
pub fn one<T: Drop>(alloc: Global, item: T) -> Result<Seq<T>, NoMemory> {
    let mut all = Seq::new(alloc);
    all.push(item)?;
    Ok(all)
}

/// A list of two.
pub fn two<T: Drop>(alloc: Global, first: T, second: T) -> Result<Seq<T>, NoMemory> {
    let mut all = one(alloc, first)?;
    all.push(second)?;
    Ok(all)
}

/// Two values in boxes of their own.
fn both<T: Drop>(alloc: Global, first: T, second: T) -> Result<(Box<T>, Box<T>), NoMemory> {
    let first = boxed(alloc, first)?;
    let second = boxed(alloc, second)?;
    Ok((first, second))
}

pub fn number(value: i32) -> TypedExpr {
    TypedExpr {
        ty: Ty::NUMBER,
        node: TypedNode::Num(value),
    }
}

pub fn name(spot: Spot) -> TypedExpr {
    TypedExpr {
        ty: Ty::NUMBER,
        node: TypedNode::Name(spot),
    }
}

/// Two operands, with the number of the operator. Its type is given as that of a number.
pub fn binary(alloc: Global, op: u8, a: TypedExpr, b: TypedExpr) -> Result<TypedExpr, NoMemory> {
    let (a, b) = both(alloc, a, b)?;
    Ok(TypedExpr {
        ty: Ty::NUMBER,
        node: TypedNode::Binary(op, a, b),
    })
}

/// `name = a`, or with the number of an operator `name += a`.
pub fn set(alloc: Global, op: Option<u8>, spot: Spot, a: TypedExpr) -> Result<TypedStmt, NoMemory> {
    let (target, a) = both(alloc, name(spot), a)?;
    Ok(TypedStmt::Plain(TypedExpr {
        ty: Ty::NUMBER,
        node: TypedNode::Set(op, target, a),
    }))
}

/// `name++`
pub fn increment(alloc: Global, spot: Spot) -> Result<TypedExpr, NoMemory> {
    Ok(TypedExpr {
        ty: Ty::NUMBER,
        node: TypedNode::Bump {
            target: boxed(alloc, name(spot))?,
            by: 1,
            late: true,
        },
    })
}

/// A call of what gives a value of a type.
fn call_of(ty: Ty, callee: Callee, args: Seq<TypedExpr>) -> TypedExpr {
    TypedExpr {
        ty,
        node: TypedNode::Call(callee, args),
    }
}

/// A call of a function that gives a number.
pub fn call(function: u32, args: Seq<TypedExpr>) -> TypedExpr {
    call_of(Ty::NUMBER, Callee::Function(function), args)
}

/// A call of a function that gives nothing, as a statement.
pub fn run(function: u32, args: Seq<TypedExpr>) -> TypedStmt {
    TypedStmt::Plain(call_of(Ty::NOTHING, Callee::Function(function), args))
}

/// A call of the board, as a statement.
pub fn ask(call: BoardCall, args: Seq<TypedExpr>) -> TypedStmt {
    TypedStmt::Plain(call_of(Ty::NOTHING, Callee::Board(call), args))
}

/// `let name = first`
pub fn declare(alloc: Global, spot: Spot, first: TypedExpr) -> Result<TypedStmt, NoMemory> {
    let binding = TypedBinding {
        name: spot,
        first: Some(first),
    };
    Ok(TypedStmt::Let {
        fixed: false,
        each: one(alloc, binding)?,
    })
}

/// `{ .. }`
pub fn block(all: Seq<TypedStmt>) -> TypedStmt {
    TypedStmt::Block(all)
}

/// A function.
pub fn routine(params: Seq<Ty>, locals: Seq<Ty>, gives: Ty, stmts: Seq<TypedStmt>) -> TypedBody {
    TypedBody {
        params,
        locals,
        gives,
        stmts,
    }
}
