//! Values and what the operators make of them.

use crate::types::{Arithmetic, Binary, Relation, Type, Unary};

/// A value of a script.
#[derive(Clone, Copy, Debug, PartialEq, Eq)]
#[allow(missing_docs)]
pub enum Value {
    Bool(bool),
    Char(i8),
    Int(i32),
}

/// A division by zero.
#[derive(Clone, Copy, Debug, PartialEq, Eq)]
pub struct Divided;

impl Value {
    /// Its type.
    pub fn kind(self) -> Type {
        match self {
            Value::Bool(_) => Type::Bool,
            Value::Char(_) => Type::Char,
            Value::Int(_) => Type::Int,
        }
    }

    /// The bool, where the checker has seen to it that it is one.
    pub fn truth(self) -> bool {
        match self {
            Value::Bool(truth) => truth,
            Value::Char(_) | Value::Int(_) => unreachable!("a checked condition is a bool"),
        }
    }

    /// The int, where the checker has seen to it that it is one.
    pub fn int(self) -> i32 {
        match self {
            Value::Int(value) => value,
            Value::Bool(_) | Value::Char(_) => unreachable!("a checked value is an int"),
        }
    }

    /// The operator on this value.
    pub fn unary(self, operator: Unary) -> Value {
        match (operator, self) {
            (Unary::Negate, Value::Char(value)) => Value::Char(value.wrapping_neg()),
            (Unary::Negate, Value::Int(value)) => Value::Int(value.wrapping_neg()),
            (Unary::Not, Value::Bool(truth)) => Value::Bool(!truth),
            _ => unreachable!("a checked operand fits"),
        }
    }

    /// The operator between this value and the one on its right.
    pub fn binary(self, operator: Binary, right: Value) -> Result<Value, Divided> {
        Ok(match (operator, self, right) {
            (Binary::Arithmetic(operator), Value::Char(left), Value::Char(right)) => {
                Value::Char(arithmetic_of_chars(operator, left, right)?)
            }
            (Binary::Arithmetic(operator), Value::Int(left), Value::Int(right)) => {
                Value::Int(arithmetic_of_ints(operator, left, right)?)
            }
            (Binary::Relation(relation), Value::Char(left), Value::Char(right)) => {
                Value::Bool(compare(relation, left, right))
            }
            (Binary::Relation(relation), Value::Int(left), Value::Int(right)) => {
                Value::Bool(compare(relation, left, right))
            }
            (Binary::Equal, left, right) => Value::Bool(left == right),
            (Binary::Unequal, left, right) => Value::Bool(left != right),
            (Binary::And, Value::Bool(left), Value::Bool(right)) => Value::Bool(left && right),
            (Binary::Or, Value::Bool(left), Value::Bool(right)) => Value::Bool(left || right),
            _ => unreachable!("checked operands fit"),
        })
    }
}

fn arithmetic_of_ints(operator: Arithmetic, left: i32, right: i32) -> Result<i32, Divided> {
    Ok(match operator {
        Arithmetic::Add => left.wrapping_add(right),
        Arithmetic::Subtract => left.wrapping_sub(right),
        Arithmetic::Multiply => left.wrapping_mul(right),
        Arithmetic::Divide if right != 0 => left.wrapping_div(right),
        Arithmetic::Remain if right != 0 => left.wrapping_rem(right),
        Arithmetic::Divide | Arithmetic::Remain => return Err(Divided),
    })
}

fn arithmetic_of_chars(operator: Arithmetic, left: i8, right: i8) -> Result<i8, Divided> {
    Ok(match operator {
        Arithmetic::Add => left.wrapping_add(right),
        Arithmetic::Subtract => left.wrapping_sub(right),
        Arithmetic::Multiply => left.wrapping_mul(right),
        Arithmetic::Divide if right != 0 => left.wrapping_div(right),
        Arithmetic::Remain if right != 0 => left.wrapping_rem(right),
        Arithmetic::Divide | Arithmetic::Remain => return Err(Divided),
    })
}

fn compare<T: PartialOrd>(relation: Relation, left: T, right: T) -> bool {
    match relation {
        Relation::Less => left < right,
        Relation::LessEqual => left <= right,
        Relation::Greater => left > right,
        Relation::GreaterEqual => left >= right,
    }
}
