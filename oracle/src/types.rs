//! Types, operators, and what fits together.

use crate::token::{Keyword, Mark};

/// The type of a value.
#[derive(Clone, Copy, Debug, PartialEq, Eq)]
#[allow(missing_docs)]
pub enum Type {
    Bool,
    Char,
    Int,
}

impl Type {
    /// All types.
    pub const ALL: [Type; 3] = [Type::Bool, Type::Char, Type::Int];

    /// The type that a keyword names.
    pub fn named(keyword: Keyword) -> Option<Type> {
        match keyword {
            Keyword::Bool => Some(Type::Bool),
            Keyword::Char => Some(Type::Char),
            Keyword::Int => Some(Type::Int),
            _ => None,
        }
    }

    /// The keyword that names it.
    pub fn keyword(self) -> Keyword {
        match self {
            Type::Bool => Keyword::Bool,
            Type::Char => Keyword::Char,
            Type::Int => Keyword::Int,
        }
    }

    fn is_number(self) -> bool {
        self != Type::Bool
    }
}

/// An operator with two operands.
#[derive(Clone, Copy, Debug, PartialEq, Eq)]
#[allow(missing_docs)]
pub enum Binary {
    Arithmetic(Arithmetic),
    Relation(Relation),
    Equal,
    Unequal,
    And,
    Or,
}

/// The operators that calculate.
#[derive(Clone, Copy, Debug, PartialEq, Eq)]
#[allow(missing_docs)]
pub enum Arithmetic {
    Add,
    Subtract,
    Multiply,
    Divide,
    Remain,
}

/// The operators that compare by size.
#[derive(Clone, Copy, Debug, PartialEq, Eq)]
#[allow(missing_docs)]
pub enum Relation {
    Less,
    LessEqual,
    Greater,
    GreaterEqual,
}

/// The operators that bind equally, from the loosest.
pub const RANKS: [&[Mark]; 6] = [
    &[Mark::Or],
    &[Mark::And],
    &[Mark::Equal, Mark::Unequal],
    &[Mark::Less, Mark::LessEqual, Mark::Greater, Mark::GreaterEqual],
    &[Mark::Plus, Mark::Minus],
    &[Mark::Star, Mark::Slash, Mark::Percent],
];

impl Binary {
    /// The operator that a mark is between two operands.
    pub fn of(mark: Mark) -> Option<Binary> {
        Some(match mark {
            Mark::Plus => Binary::Arithmetic(Arithmetic::Add),
            Mark::Minus => Binary::Arithmetic(Arithmetic::Subtract),
            Mark::Star => Binary::Arithmetic(Arithmetic::Multiply),
            Mark::Slash => Binary::Arithmetic(Arithmetic::Divide),
            Mark::Percent => Binary::Arithmetic(Arithmetic::Remain),
            Mark::Less => Binary::Relation(Relation::Less),
            Mark::LessEqual => Binary::Relation(Relation::LessEqual),
            Mark::Greater => Binary::Relation(Relation::Greater),
            Mark::GreaterEqual => Binary::Relation(Relation::GreaterEqual),
            Mark::Equal => Binary::Equal,
            Mark::Unequal => Binary::Unequal,
            Mark::And => Binary::And,
            Mark::Or => Binary::Or,
            _ => return None,
        })
    }

    /// The operator inside a modifier such as `+=`.
    pub fn of_modifier(mark: Mark) -> Option<Binary> {
        Binary::of(match mark {
            Mark::PlusAssign => Mark::Plus,
            Mark::MinusAssign => Mark::Minus,
            Mark::StarAssign => Mark::Star,
            Mark::SlashAssign => Mark::Slash,
            Mark::PercentAssign => Mark::Percent,
            Mark::AndAssign => Mark::And,
            Mark::OrAssign => Mark::Or,
            _ => return None,
        })
    }

    /// The type of the result, if the operands fit.
    pub fn result(self, left: Type, right: Type) -> Option<Type> {
        if left != right {
            return None;
        }
        match self {
            Binary::Arithmetic(_) => left.is_number().then_some(left),
            Binary::Relation(_) => left.is_number().then_some(Type::Bool),
            Binary::Equal | Binary::Unequal => Some(Type::Bool),
            Binary::And | Binary::Or => (left == Type::Bool).then_some(Type::Bool),
        }
    }
}

/// An operator with one operand.
#[derive(Clone, Copy, Debug, PartialEq, Eq)]
#[allow(missing_docs)]
pub enum Unary {
    Negate,
    Not,
}

impl Unary {
    /// The operator that a mark is before an operand.
    pub fn of(mark: Mark) -> Option<Unary> {
        match mark {
            Mark::Minus => Some(Unary::Negate),
            Mark::Not => Some(Unary::Not),
            _ => None,
        }
    }

    /// The type of the result, if the operand fits.
    pub fn result(self, operand: Type) -> Option<Type> {
        match self {
            Unary::Negate => operand.is_number().then_some(operand),
            Unary::Not => (operand == Type::Bool).then_some(Type::Bool),
        }
    }
}

/// A function of the board.
#[derive(Clone, Copy, Debug, PartialEq, Eq)]
#[allow(missing_docs)]
pub enum Function {
    Zone,
    Columns,
    Rows,
    Report,
}

impl Function {
    /// All functions of the board.
    pub const ALL: [Function; 4] =
        [Function::Zone, Function::Columns, Function::Rows, Function::Report];

    /// Its name.
    pub fn name(self) -> &'static str {
        match self {
            Function::Zone => "zone",
            Function::Columns => "columns",
            Function::Rows => "rows",
            Function::Report => "report",
        }
    }

    /// The function of this name.
    pub fn named(name: &str) -> Option<Function> {
        Function::ALL.into_iter().find(|function| function.name() == name)
    }

    /// The type of its answer; `report` gives none.
    pub fn answer(self) -> Option<Type> {
        (self != Function::Report).then_some(Type::Int)
    }

    /// The type of its parameter, if it has one.
    pub fn parameter(self) -> Option<Type> {
        matches!(self, Function::Zone | Function::Report).then_some(Type::Int)
    }
}
