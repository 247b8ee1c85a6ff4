//! The tree of a script.

use crate::refusal::Place;
use crate::types::{Binary, Type, Unary};
use crate::value::Value;

/// A name where it stands.
#[derive(Clone, Debug, PartialEq, Eq)]
pub struct Name {
    /// Its bytes, all of them letters, digits and underscores.
    pub text: String,
    /// Its first byte.
    pub place: Place,
}

/// A whole script.
#[derive(Clone, Debug)]
pub struct Script {
    /// Externs and globals in their order.
    pub declarations: Vec<Declaration>,
    /// The statements between main's braces.
    pub body: Vec<Statement>,
    /// Main's closing brace.
    pub end: Place,
}

/// What stands before main.
#[derive(Clone, Debug)]
pub enum Declaration {
    /// A function of the board; no type is void.
    Extern {
        /// Its name.
        name: Name,
        /// The type of its answer.
        answer: Option<Type>,
        /// The type of its parameter.
        parameter: Option<Type>,
    },
    /// A global variable.
    Global {
        /// The defined type.
        kind: Type,
        /// The defined name.
        name: Name,
        /// The constant it starts with.
        value: Value,
    },
}

/// A statement.
#[derive(Clone, Debug)]
#[allow(missing_docs)]
pub enum Statement {
    Block(Vec<Statement>),
    Definition { kind: Type, name: Name, value: Expression },
    Assignment { name: Name, how: Assignment, place: Place, value: Expression },
    Expression(Expression),
    If { place: Place, condition: Expression, then: Box<Statement>, other: Option<Box<Statement>> },
    While { place: Place, condition: Expression, body: Box<Statement> },
    Do { place: Place, body: Box<Statement>, condition: Expression },
    For(Box<For>),
    Break(Place),
    Continue(Place),
    Return { place: Place, value: Option<Expression> },
}

/// A counting loop.
#[derive(Clone, Debug)]
#[allow(missing_docs)]
pub struct For {
    pub place: Place,
    pub name: Name,
    pub start: Expression,
    pub stop: Expression,
    pub body: Statement,
}

/// Plain `=`, or a modifier with its operator.
#[derive(Clone, Copy, Debug)]
#[allow(missing_docs)]
pub enum Assignment {
    Plain,
    Modify(Binary),
}

/// An expression.
#[derive(Clone, Debug)]
pub enum Expression {
    /// `true`, `false`, a number or a character.
    Constant(Value),
    /// A name as a value.
    Variable(Name),
    /// A call.
    Call(Call),
    /// An operator before its operand.
    Unary {
        /// The operator.
        operator: Unary,
        /// Its place.
        place: Place,
        /// What stands under it.
        operand: Box<Expression>,
    },
    /// Operands joined by operators that bind equally, grouped to the left.
    /// A list and not a nest of pairs: chains may be hundreds of operators long.
    Chain {
        /// The leftmost operand.
        first: Box<Expression>,
        /// Each operator with the operand on its right.
        rest: Vec<Link>,
    },
    /// An expression in brackets.
    Brackets(Box<Expression>),
}

/// An operator of a chain and the operand on its right.
#[derive(Clone, Debug)]
#[allow(missing_docs)]
pub struct Link {
    pub operator: Binary,
    pub place: Place,
    pub right: Expression,
}

/// A call with any number of arguments.
#[derive(Clone, Debug)]
#[allow(missing_docs)]
pub struct Call {
    pub name: Name,
    pub arguments: Vec<Expression>,
}
