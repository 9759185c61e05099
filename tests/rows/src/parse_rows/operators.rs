// Operators as they are written, by their numbers.

use sts_syntax::operators;

/// An operator before its operand.
pub fn prefix(op: u8) -> &'static str {
    match op {
        operators::NEGATE => "-",
        operators::PLUS => "+",
        operators::NOT => "!",
        operators::COMPLEMENT => "~",
        _ => "no prefix",
    }
}

/// An operator between two operands.
pub fn infix(op: u8) -> &'static str {
    match op {
        operators::BIT_OR => "|",
        operators::BIT_XOR => "^",
        operators::BIT_AND => "&",
        operators::EQUAL => "==",
        operators::UNEQUAL => "!=",
        operators::LESS => "<",
        operators::GREATER => ">",
        operators::AT_MOST => "<=",
        operators::AT_LEAST => ">=",
        operators::SHIFT_LEFT => "<<",
        operators::SHIFT_RIGHT => ">>",
        operators::SHIFT_RIGHT_UNSIGNED => ">>>",
        operators::ADD => "+",
        operators::SUBTRACT => "-",
        operators::MULTIPLY => "*",
        operators::DIVIDE => "/",
        operators::REMAINDER => "%",
        _ => "no operator",
    }
}

/// The assignment by an operator, or by none.
pub fn assignment(op: Option<u8>) -> &'static str {
    match op {
        None => "=",
        Some(operators::BIT_OR) => "|=",
        Some(operators::BIT_XOR) => "^=",
        Some(operators::BIT_AND) => "&=",
        Some(operators::SHIFT_LEFT) => "<<=",
        Some(operators::SHIFT_RIGHT) => ">>=",
        Some(operators::SHIFT_RIGHT_UNSIGNED) => ">>>=",
        Some(operators::ADD) => "+=",
        Some(operators::SUBTRACT) => "-=",
        Some(operators::MULTIPLY) => "*=",
        Some(operators::DIVIDE) => "/=",
        Some(operators::REMAINDER) => "%=",
        Some(_) => "no assignment",
    }
}

/// The steps by one, with `_` where the target stands.
pub fn bump(by: i32, after: bool) -> &'static str {
    match (by, after) {
        (1, false) => "++_",
        (1, true) => "_++",
        (-1, false) => "--_",
        (-1, true) => "_--",
        _ => "no step",
    }
}

/// The word that declares names.
pub fn let_word(fixed: bool) -> &'static str {
    if fixed { "const" } else { "let" }
}
