//! Whole scripts: declarations, main, and a look at what its variables hold.

use super::writer::{Meaning, Plan, Writer};
use crate::random::Random;
use crate::types::{Function, Type};

/// A script that is accepted.
pub fn sound(random: &mut Random) -> Vec<String> {
    let plan = plan(random, 0);
    write(random, plan)
}

/// A script in which some statements and declarations may be faulty.
pub fn faulty(random: &mut Random) -> Vec<String> {
    let faults = random.pick(&[3, 8, 20]);
    let plan = plan(random, faults);
    write(random, plan)
}

fn plan(random: &mut Random, faults: usize) -> Plan {
    Plan {
        most_words: random.pick(&[40, 120, 120, 250, 250, 500, 850]),
        most_depth: random.pick(&[2, 4, 6, 9, 32]),
        faults,
    }
}

fn write(random: &mut Random, plan: Plan) -> Vec<String> {
    let mut writer = Writer::new(random, plan);
    writer.declarations();
    writer.main();
    writer.into_words()
}

impl Writer<'_> {
    fn declarations(&mut self) {
        for _ in 0..self.random.between(0, 8) {
            if self.random.percent(self.plan.faults) {
                self.faulty_declaration();
            } else if self.random.percent(70) {
                let function = self.random.pick(&Function::ALL);
                self.external(function);
            } else {
                self.global();
            }
        }
    }

    fn external(&mut self, function: Function) {
        if self.names.defined_here(function.name()) {
            return;
        }
        self.word("extern");
        self.word(function.answer().map_or("void", |kind| kind.keyword().text()));
        self.word(function.name());
        self.word("(");
        if let Some(kind) = function.parameter() {
            self.word(kind.keyword().text());
            let name = self.random.pick(super::words::NAMES);
            self.word(name);
        }
        self.say(") ;");
        self.names.define(function.name(), Meaning::Function(function));
    }

    fn global(&mut self) {
        let kind = self.any_type();
        let name = self.fresh_name();
        if self.random.percent(20) {
            self.word("static");
        }
        self.word(kind.keyword().text());
        self.word(name.clone());
        self.word("=");
        self.constant(kind);
        self.word(";");
        self.define(&name, kind, false, 1);
    }

    fn main(&mut self) {
        if self.random.percent(20) {
            self.word("static");
        }
        self.say("int main ( ) {");
        self.names.enter();
        self.names.define("main", Meaning::Main);
        self.names.enter();
        let statements = self.random.pick(&[2, 5, 10, 20, 60]);
        self.statements(1, statements);
        if self.plan.faults > 0 && self.random.percent(60) {
            self.faulty_statement(1);
        }
        self.look_at_variables();
        self.word("}");
    }

    /// Reports what variables hold at the end, and returns an int of them.
    fn look_at_variables(&mut self) {
        for _ in 0..self.random.between(0, 3) {
            if let Some(name) = self.some_variable(|_, _| true) {
                self.look_at(&name);
            }
        }
        if self.random.percent(80) {
            self.word("return");
            self.expression(Type::Int, 1, 5);
            self.word(";");
        }
    }

    fn look_at(&mut self, name: &str) {
        if !self.can_call(Function::Report) {
            return;
        }
        match self.type_of(name) {
            Some(Type::Int) => self.say(&format!("report ( {name} ) ;")),
            Some(Type::Bool) => {
                self.say(&format!("if ( {name} ) report ( 1 ) ; else report ( 0 ) ;"))
            }
            Some(Type::Char) if self.has_cells(2) => self.count_up_to(name),
            Some(Type::Char) | None => {}
        }
    }

    /// Finds out a char by counting another one up to it; chars never become ints.
    fn count_up_to(&mut self, name: &str) {
        self.say(&format!(
            "{{ char up_ = '\\0' ; int steps_ = 0 ; while ( up_ != {name} ) \
             {{ up_ += 'b' - 'a' ; steps_ += 1 ; }} report ( steps_ ) ; }}"
        ));
    }
}
