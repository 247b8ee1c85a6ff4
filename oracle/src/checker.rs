//! Names and types, in the order of the text, parts before the whole.

use crate::levels::Levels;
use crate::refusal::{Fault, Place, Refusal};
use crate::tree::{Assignment, Call, Declaration, Expression, For, Link, Name, Script, Statement};
use crate::types::{Function, Type};

/// The most cells in use at one point.
pub const MOST_CELLS: usize = 64;

/// The first fault of a script's names and types, if there is one.
pub fn check(script: &Script) -> Result<(), Refusal> {
    let mut checker = Checker { levels: Levels::new(), loops: 0 };
    for declaration in &script.declarations {
        checker.declaration(declaration)?;
    }
    checker.levels.enter();
    checker.levels.define("main", Symbol::Main);
    checker.block(&script.body)
}

/// What a name can mean.
#[derive(Clone, Copy, Debug, PartialEq, Eq)]
enum Symbol {
    /// A variable, and the cells it takes.
    Variable {
        kind: Type,
        cells: usize,
    },
    Function(Function),
    Main,
}

struct Checker {
    levels: Levels<Symbol>,
    /// How many loops are open around the statement.
    loops: usize,
}

type Checked = Result<(), Refusal>;

/// Names.
impl Checker {
    fn lookup(&self, name: &Name) -> Result<Symbol, Refusal> {
        self.levels.find(&name.text).copied().ok_or(Fault::AbsentName.at(name.place))
    }

    fn variable(&self, name: &Name) -> Result<Type, Refusal> {
        match self.lookup(name)? {
            Symbol::Variable { kind, .. } => Ok(kind),
            Symbol::Function(_) | Symbol::Main => Err(Fault::WrongUse.at(name.place)),
        }
    }

    fn function(&self, name: &Name) -> Result<Function, Refusal> {
        match self.lookup(name)? {
            Symbol::Function(function) => Ok(function),
            Symbol::Variable { .. } | Symbol::Main => Err(Fault::WrongUse.at(name.place)),
        }
    }

    /// Adds a definition to the innermost level, unless the name or a cell is taken.
    fn define(&mut self, name: &Name, symbol: Symbol) -> Checked {
        if self.levels.defined_here(&name.text) {
            return Err(Fault::DefinedTwice.at(name.place));
        }
        if self.cells_in_use() + cells_of(symbol) > MOST_CELLS {
            return Err(Fault::TooManyCells.at(name.place));
        }
        self.levels.define(&name.text, symbol);
        Ok(())
    }

    fn cells_in_use(&self) -> usize {
        self.levels.innermost_first().map(|&(_, symbol)| cells_of(symbol)).sum()
    }

    fn declaration(&mut self, declaration: &Declaration) -> Checked {
        match declaration {
            Declaration::Extern { name, answer, parameter } => {
                let function = Function::named(&name.text)
                    .filter(|known| known.answer() == *answer && known.parameter() == *parameter)
                    .ok_or(Fault::UnknownExtern.at(name.place))?;
                self.define(name, Symbol::Function(function))
            }
            Declaration::Global { kind, name, value } => {
                fits(value.kind() == *kind, name.place)?;
                self.define(name, Symbol::Variable { kind: *kind, cells: 1 })
            }
        }
    }
}

fn cells_of(symbol: Symbol) -> usize {
    match symbol {
        Symbol::Variable { cells, .. } => cells,
        Symbol::Function(_) | Symbol::Main => 0,
    }
}

fn fits(condition: bool, place: Place) -> Checked {
    if condition {
        Ok(())
    } else {
        Err(Fault::Mismatch.at(place))
    }
}

/// Statements.
impl Checker {
    fn block(&mut self, statements: &[Statement]) -> Checked {
        self.levels.enter();
        for statement in statements {
            self.statement(statement)?;
        }
        self.levels.leave();
        Ok(())
    }

    fn body(&mut self, statement: &Statement) -> Checked {
        self.levels.enter();
        self.statement(statement)?;
        self.levels.leave();
        Ok(())
    }

    fn loop_body(&mut self, statement: &Statement) -> Checked {
        self.loops += 1;
        self.body(statement)?;
        self.loops -= 1;
        Ok(())
    }

    fn statement(&mut self, statement: &Statement) -> Checked {
        match statement {
            Statement::Block(statements) => self.block(statements),
            Statement::Definition { kind, name, value } => {
                fits(self.value(value)? == *kind, name.place)?;
                self.define(name, Symbol::Variable { kind: *kind, cells: 1 })
            }
            Statement::Assignment { name, how, place, value } => {
                self.assignment(name, *how, *place, value)
            }
            Statement::Expression(Expression::Call(call)) => self.call(call).map(drop),
            Statement::Expression(value) => self.value(value).map(drop),
            Statement::If { place, condition, then, other } => {
                self.condition(condition, *place)?;
                self.body(then)?;
                other.iter().try_for_each(|other| self.body(other))
            }
            Statement::While { place, condition, body } => {
                self.condition(condition, *place)?;
                self.loop_body(body)
            }
            Statement::Do { place, body, condition } => {
                self.loop_body(body)?;
                self.condition(condition, *place)
            }
            Statement::For(counting) => self.for_loop(counting),
            Statement::Break(place) | Statement::Continue(place) => self.inside_loop(*place),
            Statement::Return { place, value } => self.return_statement(*place, value.as_ref()),
        }
    }

    fn assignment(
        &mut self,
        name: &Name,
        how: Assignment,
        place: Place,
        value: &Expression,
    ) -> Checked {
        let kind = self.variable(name)?;
        let right = self.value(value)?;
        let result = match how {
            Assignment::Plain => Some(right),
            Assignment::Modify(operator) => operator.result(kind, right),
        };
        fits(result == Some(kind), place)
    }

    fn condition(&mut self, condition: &Expression, place: Place) -> Checked {
        fits(self.value(condition)? == Type::Bool, place)
    }

    fn for_loop(&mut self, counting: &For) -> Checked {
        let start = self.value(&counting.start)?;
        let stop = self.value(&counting.stop)?;
        fits(start == Type::Int && stop == Type::Int, counting.place)?;
        self.levels.enter();
        self.define(&counting.name, Symbol::Variable { kind: Type::Int, cells: 2 })?;
        self.loop_body(&counting.body)?;
        self.levels.leave();
        Ok(())
    }

    fn inside_loop(&self, place: Place) -> Checked {
        if self.loops == 0 {
            return Err(Fault::OutsideLoop.at(place));
        }
        Ok(())
    }

    fn return_statement(&mut self, place: Place, value: Option<&Expression>) -> Checked {
        let kind = value.map(|value| self.value(value)).transpose()?;
        fits(kind == Some(Type::Int), place)
    }
}

/// Expressions.
impl Checker {
    /// The type of an expression that must have a value.
    fn value(&self, expression: &Expression) -> Result<Type, Refusal> {
        match expression {
            Expression::Constant(value) => Ok(value.kind()),
            Expression::Variable(name) => self.variable(name),
            Expression::Call(call) => self.call(call)?.ok_or(Fault::Mismatch.at(call.name.place)),
            Expression::Unary { operator, place, operand } => {
                let operand = self.value(operand)?;
                operator.result(operand).ok_or(Fault::Mismatch.at(*place))
            }
            Expression::Chain { first, rest } => self.chain(first, rest),
            Expression::Brackets(inner) => self.value(inner),
        }
    }

    fn chain(&self, first: &Expression, rest: &[Link]) -> Result<Type, Refusal> {
        let mut left = self.value(first)?;
        for link in rest {
            let right = self.value(&link.right)?;
            left = link.operator.result(left, right).ok_or(Fault::Mismatch.at(link.place))?;
        }
        Ok(left)
    }

    /// The type of a call's answer, nothing for a void one.
    fn call(&self, call: &Call) -> Result<Option<Type>, Refusal> {
        let function = self.function(&call.name)?;
        let mut arguments = Vec::new();
        for argument in &call.arguments {
            arguments.push(self.value(argument)?);
        }
        fits(arguments.iter().copied().eq(function.parameter()), call.name.place)?;
        Ok(function.answer())
    }
}
