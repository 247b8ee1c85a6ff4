//! Statements that fit where they stand.

use super::writer::Writer;
use crate::parser::MOST_DEPTH;
use crate::types::{Function, Type};

/// The forms of a statement.
#[derive(Clone, Copy, PartialEq, Eq)]
enum Form {
    Define,
    Assign,
    Modify,
    Value,
    Report,
    Block,
    If,
    While,
    Do,
    For,
    Leave,
    Return,
}

/// Forms that hold no statement.
const SIMPLE: &[(usize, Form)] =
    &[(4, Form::Define), (5, Form::Assign), (5, Form::Modify), (1, Form::Value), (2, Form::Report)];

/// All forms.
const ALL: &[(usize, Form)] = &[
    (6, Form::Define),
    (6, Form::Assign),
    (7, Form::Modify),
    (1, Form::Value),
    (3, Form::Report),
    (2, Form::Block),
    (6, Form::If),
    (1, Form::While),
    (1, Form::Do),
    (6, Form::For),
    (3, Form::Leave),
    (1, Form::Return),
];

impl Writer<'_> {
    /// Up to so many statements in a row, at a depth.
    pub fn statements(&mut self, depth: usize, most: usize) {
        for _ in 0..self.random.between(1, most) {
            if !self.has_room() {
                return;
            }
            if depth + 2 < self.plan.most_depth && self.has_cells(1) && self.random.percent(12) {
                self.countdown(depth);
            } else {
                self.statement(depth);
            }
        }
    }

    /// One statement.
    pub fn statement(&mut self, depth: usize) {
        if self.random.percent(self.plan.faults) {
            return self.faulty_statement(depth);
        }
        let deeper = depth < self.plan.most_depth && self.has_room();
        let form = self.random.weighted(if deeper { ALL } else { SIMPLE });
        match form {
            Form::Define => self.definition(depth),
            Form::Assign => self.assignment(depth),
            Form::Modify => self.modification(depth),
            Form::Value => self.value(depth),
            Form::Report => self.report(depth),
            Form::Block => self.block(depth),
            Form::If => self.choice(depth),
            Form::While => self.while_loop(depth),
            Form::Do => self.do_loop(depth),
            Form::For => self.for_loop(depth),
            Form::Leave => self.leave_loop(depth),
            Form::Return => self.guarded_return(depth),
        }
    }

    fn definition(&mut self, depth: usize) {
        if !self.has_cells(1) {
            return self.value(depth);
        }
        let kind = self.any_type();
        let name = self.fresh_name();
        self.word(kind.keyword().text());
        self.word(name.clone());
        self.word("=");
        self.short(kind, depth);
        self.word(";");
        self.define(&name, kind, false, 1);
    }

    fn assignment(&mut self, depth: usize) {
        let Some(name) = self.some_variable(|_, steady| !steady) else {
            return self.definition(depth);
        };
        let kind = self.type_of(&name).unwrap_or(Type::Int);
        self.word(name);
        self.word("=");
        self.short(kind, depth);
        self.word(";");
    }

    fn modification(&mut self, depth: usize) {
        let Some(name) = self.some_variable(|_, steady| !steady) else {
            return self.definition(depth);
        };
        let kind = self.type_of(&name).unwrap_or(Type::Int);
        let mark = match kind {
            Type::Bool => self.random.pick(&["&&=", "||="]),
            Type::Char | Type::Int => self.random.pick(&["+=", "+=", "-=", "*=", "/=", "%="]),
        };
        self.word(name);
        self.word(mark);
        match mark {
            "/=" | "%=" => self.divisor(kind, depth),
            _ => self.short(kind, depth),
        }
        self.word(";");
    }

    fn value(&mut self, depth: usize) {
        let kind = self.any_type();
        self.short(kind, depth);
        self.word(";");
    }

    fn report(&mut self, depth: usize) {
        if !self.can_call(Function::Report) || depth == MOST_DEPTH {
            return self.value(depth);
        }
        let guarded = self.loops > 0 && depth + 1 < MOST_DEPTH && self.random.percent(75);
        if guarded {
            self.say("if (");
            self.short(Type::Bool, depth);
            self.word(")");
        }
        self.say("report (");
        self.short(Type::Int, depth + if guarded { 2 } else { 1 });
        self.say(") ;");
    }

    /// A block with statements of its own.
    pub fn block(&mut self, depth: usize) {
        self.word("{");
        self.names.enter();
        if depth < self.plan.most_depth {
            self.statements(depth + 1, 4);
        }
        self.names.leave();
        self.word("}");
    }

    /// The body of a statement at a depth, mostly a block.
    pub fn body(&mut self, depth: usize) {
        self.names.enter();
        if self.random.percent(60) {
            self.block(depth + 1);
        } else {
            self.statement(depth + 1);
        }
        self.names.leave();
    }

    fn loop_body(&mut self, depth: usize) {
        self.loops += 1;
        self.body(depth);
        self.loops -= 1;
    }

    /// A condition in brackets.
    fn condition(&mut self, depth: usize) {
        self.word("(");
        let size = self.random.between(2, 6);
        self.expression(Type::Bool, depth, size);
        self.word(")");
    }

    fn choice(&mut self, depth: usize) {
        self.word("if");
        self.condition(depth);
        if self.random.percent(50) {
            self.body(depth);
            return;
        }
        // In braces, lest an inner `if` take the `else`.
        self.names.enter();
        self.block(depth + 1);
        self.names.leave();
        self.word("else");
        self.body(depth);
    }

    fn while_loop(&mut self, depth: usize) {
        self.word("while");
        self.condition(depth);
        self.loop_body(depth);
    }

    fn do_loop(&mut self, depth: usize) {
        self.word("do");
        self.loop_body(depth);
        self.word("while");
        self.condition(depth);
        self.word(";");
    }

    fn for_loop(&mut self, depth: usize) {
        if !self.has_cells(2) {
            return self.value(depth);
        }
        let name = self.random.pick(super::words::NAMES);
        self.say("for ( int");
        self.word(name);
        self.word("=");
        self.bound(depth, 4);
        self.word("to");
        self.bound(depth, 9);
        self.word(")");
        self.names.enter();
        let steady = self.random.percent(92);
        self.define(name, Type::Int, steady, 2);
        self.loop_body(depth);
        self.names.leave();
    }

    /// The start or stop of a `for`, mostly small.
    fn bound(&mut self, depth: usize, below: usize) {
        match self.random.below(10) {
            0 => self.short(Type::Int, depth),
            1 if depth < MOST_DEPTH => self.say("- 2"),
            2 if self.can_call(Function::Columns) => self.say("columns ( )"),
            _ => {
                let bound = self.random.below(below).to_string();
                self.word(bound);
            }
        }
    }

    /// A counter and a loop that counts it down.
    fn countdown(&mut self, depth: usize) {
        let name = self.fresh_name();
        let start = self.random.between(1, 6);
        self.say(&format!("int {name} = {start} ;"));
        self.define(&name, Type::Int, true, 1);
        let is_do = self.random.percent(40);
        if is_do {
            self.say("do {");
        } else {
            self.say(&format!("while ( {name} > 0 ) {{"));
        }
        self.counted_rounds(&name, depth);
        self.word("}");
        if is_do {
            self.say(&format!("while ( {name} > 0 ) ;"));
        }
    }

    /// What stands in a counted loop's braces; counting last makes `continue` wait.
    fn counted_rounds(&mut self, name: &str, depth: usize) {
        self.loops += 1;
        self.names.enter();
        self.names.enter();
        let first = self.random.percent(85);
        if first {
            self.say(&format!("{name} -= 1 ;"));
            self.statements(depth + 2, 4);
        } else {
            self.block(depth + 2);
            self.say(&format!("{name} = {name} - 1 ;"));
        }
        self.names.leave();
        self.names.leave();
        self.loops -= 1;
    }

    /// `break` or `continue`, mostly under a condition.
    fn leave_loop(&mut self, depth: usize) {
        if self.loops == 0 {
            return self.modification(depth);
        }
        if self.random.percent(85) {
            self.word("if");
            self.condition(depth);
        }
        let word = self.random.pick(&["break ;", "continue ;", "continue ;"]);
        self.say(word);
    }

    fn guarded_return(&mut self, depth: usize) {
        if self.random.percent(90) {
            self.word("if");
            self.condition(depth);
        }
        self.word("return");
        let inner = (depth + 1).min(MOST_DEPTH);
        self.short(Type::Int, inner);
        self.word(";");
    }
}
