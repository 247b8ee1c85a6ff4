//! Expressions of a wanted type.

use super::words;
use super::writer::Writer;
use crate::parser::MOST_DEPTH;
use crate::types::{Function, Type};

/// How tightly an expression must bind, as the place among the ranks of operators.
mod rank {
    pub const OR: usize = 0;
    pub const AND: usize = 1;
    pub const EQUALITY: usize = 2;
    pub const RELATION: usize = 3;
    pub const SUM: usize = 4;
    pub const PRODUCT: usize = 5;
    pub const UNARY: usize = 6;

    /// How often, of a hundred times, operators of each rank are used.
    pub const JOINED: [usize; UNARY] = [25, 30, 35, 85, 60, 50];
}

impl Writer<'_> {
    /// An expression of a type, at a depth, with about so many constants and names.
    pub fn expression(&mut self, kind: Type, depth: usize, size: usize) {
        self.ranked(kind, rank::OR, depth, size);
    }

    /// A short expression.
    pub fn short(&mut self, kind: Type, depth: usize) {
        let size = self.random.between(1, 5);
        self.expression(kind, depth, size);
    }

    fn ranked(&mut self, kind: Type, rank: usize, depth: usize, size: usize) {
        if rank >= rank::UNARY {
            return self.atom(kind, depth, size);
        }
        let join = size > 1 && self.random.percent(rank::JOINED[rank]);
        match (rank, kind) {
            (rank::OR, Type::Bool) if join => self.chain(kind, rank, &["||"], depth, size),
            (rank::AND, Type::Bool) if join => self.chain(kind, rank, &["&&"], depth, size),
            (rank::EQUALITY, Type::Bool) if join => self.equality(depth, size),
            (rank::RELATION, Type::Bool) if join => self.relation(depth, size),
            (rank::SUM, Type::Int | Type::Char) if join => {
                self.chain(kind, rank, &["+", "-"], depth, size);
            }
            (rank::PRODUCT, Type::Int | Type::Char) if join => self.product(kind, depth, size),
            _ => self.ranked(kind, rank + 1, depth, size),
        }
    }

    /// Operands of one type joined by operators of one rank.
    fn chain(&mut self, kind: Type, rank: usize, marks: &[&str], depth: usize, size: usize) {
        let operands = self.random.between(2, size.min(4));
        for operand in 0..operands {
            if operand > 0 {
                let mark = self.random.pick(marks);
                self.word(mark);
            }
            self.ranked(kind, rank + 1, depth, size.div_ceil(operands));
        }
    }

    fn equality(&mut self, depth: usize, size: usize) {
        let kind = self.any_type();
        self.ranked(kind, rank::RELATION, depth, size.div_ceil(2));
        let mark = self.random.pick(&["==", "!="]);
        self.word(mark);
        self.ranked(kind, rank::RELATION, depth, size.div_ceil(2));
        if self.random.percent(15) {
            let mark = self.random.pick(&["==", "!="]);
            self.word(mark);
            self.ranked(Type::Bool, rank::RELATION, depth, 1);
        }
    }

    fn relation(&mut self, depth: usize, size: usize) {
        let kind = self.random.pick(&[Type::Int, Type::Int, Type::Char]);
        self.ranked(kind, rank::SUM, depth, size.div_ceil(2));
        let mark = self.random.pick(&["<", "<=", ">", ">="]);
        self.word(mark);
        self.ranked(kind, rank::SUM, depth, size.div_ceil(2));
    }

    /// Factors; what divides is mostly not 0.
    fn product(&mut self, kind: Type, depth: usize, size: usize) {
        self.atom(kind, depth, size / 2);
        for _ in 0..self.random.between(1, 2) {
            let mark = self.random.pick(&["*", "/", "%"]);
            self.word(mark);
            if mark == "*" {
                self.atom(kind, depth, size / 2);
            } else {
                self.divisor(kind, depth);
            }
        }
    }

    /// Something to divide by, seldom 0.
    pub fn divisor(&mut self, kind: Type, depth: usize) {
        if self.random.percent(15) {
            self.atom(kind, depth, 2);
        } else if self.random.percent(3) {
            self.word(if kind == Type::Char { "'\\0'" } else { "0" });
        } else if kind == Type::Char {
            let divisor = self.random.pick(&["'a'", "'\\n'", "'!'", "'~'", "'\\a'"]);
            self.word(divisor);
        } else if depth < MOST_DEPTH && self.random.percent(15) {
            self.say("- 1");
        } else {
            let divisor = words::divisor(self.random);
            self.word(divisor);
        }
    }

    fn atom(&mut self, kind: Type, depth: usize, size: usize) {
        let deeper = depth < MOST_DEPTH;
        match self.random.below(20) {
            0..=2 if deeper && size > 1 => self.in_brackets(kind, depth, size),
            3..=4 if deeper => self.under_unary(kind, depth, size),
            5..=8 if kind == Type::Int => self.call(depth, size),
            9..=15 => self.variable(kind),
            _ => self.constant(kind),
        }
    }

    fn in_brackets(&mut self, kind: Type, depth: usize, size: usize) {
        self.word("(");
        self.expression(kind, depth + 1, size - 1);
        self.word(")");
    }

    fn under_unary(&mut self, kind: Type, depth: usize, size: usize) {
        self.word(if kind == Type::Bool { "!" } else { "-" });
        self.atom(kind, depth + 1, size);
    }

    fn variable(&mut self, kind: Type) {
        match self.some_variable(|known, _| known == kind) {
            Some(name) => self.word(name),
            None => self.constant(kind),
        }
    }

    fn call(&mut self, depth: usize, size: usize) {
        let function =
            self.random.pick(&[Function::Zone, Function::Zone, Function::Columns, Function::Rows]);
        let needs_depth = function == Function::Zone;
        if !self.can_call(function) || (needs_depth && depth == MOST_DEPTH) {
            return self.constant(Type::Int);
        }
        self.word(function.name());
        self.word("(");
        if function == Function::Zone {
            self.zone_index(depth + 1, size);
        }
        self.word(")");
    }

    /// Mostly a zone that the board has.
    fn zone_index(&mut self, depth: usize, size: usize) {
        let variable = self.some_variable(|kind, steady| kind == Type::Int && steady);
        match (self.random.below(10), variable) {
            (0..=4, _) => {
                let index = self.random.below(12).to_string();
                self.word(index);
            }
            (5..=7, Some(name)) => {
                self.word(name);
                self.say("% 12");
            }
            _ => self.expression(Type::Int, depth, size.min(3)),
        }
    }
}
