//! Refusals: what is wrong with a source, and where.

use std::fmt;

/// The position of a byte in the source, from 0.
pub type Place = usize;

/// What is wrong with a source.
#[derive(Clone, Copy, Debug, PartialEq, Eq)]
pub enum Fault {
    /// More bytes than a source may have.
    SourceTooLong,
    /// A byte that begins no token.
    StrayByte,
    /// A long comment that is not closed.
    OpenComment,
    /// A bad character constant.
    BadCharacter,
    /// A number over the greatest int.
    NumberTooLarge,
    /// One sound token more than a source may have.
    TooManyTokens,
    /// A token that fits no script, or an end too early.
    Unexpected,
    /// A statement or an expression that is nested too deep.
    TooDeep,
    /// An extern that the board does not have.
    UnknownExtern,
    /// A name defined twice in a level.
    DefinedTwice,
    /// A name that is not in force.
    AbsentName,
    /// A function used as a variable, or a variable or main called.
    WrongUse,
    /// Types or arguments that do not fit.
    Mismatch,
    /// `break` or `continue` outside loops.
    OutsideLoop,
    /// One cell more than may be in use.
    TooManyCells,
}

impl Fault {
    /// The number that stands for the fault in every answer.
    pub fn number(self) -> u32 {
        match self {
            Fault::SourceTooLong => 1,
            Fault::StrayByte => 4,
            Fault::OpenComment => 5,
            Fault::BadCharacter => 6,
            Fault::NumberTooLarge => 7,
            Fault::TooManyTokens => 8,
            Fault::Unexpected => 9,
            Fault::TooDeep => 10,
            Fault::UnknownExtern => 11,
            Fault::DefinedTwice => 12,
            Fault::AbsentName => 13,
            Fault::WrongUse => 14,
            Fault::Mismatch => 15,
            Fault::OutsideLoop => 16,
            Fault::TooManyCells => 17,
        }
    }

    /// The refusal for this fault at a place.
    pub fn at(self, place: Place) -> Refusal {
        Refusal { fault: self, place }
    }
}

/// A fault and its place.
#[derive(Clone, Copy, Debug, PartialEq, Eq)]
pub struct Refusal {
    /// What is wrong.
    pub fault: Fault,
    /// Where.
    pub place: Place,
}

impl fmt::Display for Refusal {
    fn fmt(&self, out: &mut fmt::Formatter<'_>) -> fmt::Result {
        write!(out, "refused {} {}", self.fault.number(), self.place)
    }
}
