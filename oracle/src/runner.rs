//! The run of a checked script, straight over its tree.

use crate::board::{Board, BoardRefusal};
use crate::levels::Levels;
use crate::refusal::Place;
use crate::tree::{Assignment, Call, Declaration, Expression, For, Link, Name, Script, Statement};
use crate::types::{Binary, Function};
use crate::value::Value;

/// How a run came to its end.
#[derive(Clone, Copy, Debug, PartialEq, Eq)]
pub enum Ending {
    /// `return` or main's closing brace.
    Returned(i32),
    /// A loop needs a tick and none is left.
    Waiting,
    /// A division by zero.
    Divided,
    /// The board refused a call.
    Board(BoardRefusal),
}

impl Ending {
    /// Its name.
    pub fn name(self) -> &'static str {
        match self {
            Ending::Returned(_) => "returned",
            Ending::Waiting => "waiting",
            Ending::Divided => "divided",
            Ending::Board(_) => "board",
        }
    }

    /// Its value.
    pub fn value(self) -> i32 {
        match self {
            Ending::Returned(value) => value,
            Ending::Board(refusal) => refusal.number(),
            Ending::Waiting | Ending::Divided => 0,
        }
    }
}

/// An ending and its place.
#[derive(Clone, Copy, Debug, PartialEq, Eq)]
#[allow(missing_docs)]
pub struct End {
    pub ending: Ending,
    pub place: Place,
}

/// What a run leaves.
#[derive(Clone, Debug)]
#[allow(missing_docs)]
pub struct Outcome {
    pub end: End,
    pub spent: u64,
    pub board: Board,
}

/// Runs a checked script on a board with so many ticks.
pub fn run(script: &Script, board: Board, ticks: u64) -> Outcome {
    let mut runner = Runner { variables: Levels::new(), board, spent: 0, ticks };
    let end = match runner.script(script) {
        Ok(()) => End { ending: Ending::Returned(0), place: script.end },
        Err(end) => end,
    };
    Outcome { end, spent: runner.spent, board: runner.board }
}

struct Runner {
    variables: Levels<Value>,
    board: Board,
    spent: u64,
    ticks: u64,
}

/// Where a statement leaves off: at its end, or at a word for the loop around it.
#[derive(Clone, Copy, PartialEq, Eq)]
enum Flow {
    Next,
    Break,
    Continue,
}

/// A step's result; the end of the whole run comes up as an error.
type Step<T> = Result<T, End>;

fn over<T>(ending: Ending, place: Place) -> Step<T> {
    Err(End { ending, place })
}

/// Statements.
impl Runner {
    fn script(&mut self, script: &Script) -> Step<()> {
        for declaration in &script.declarations {
            if let Declaration::Global { name, value, .. } = declaration {
                self.variables.define(&name.text, *value);
            }
        }
        self.block(&script.body).map(drop)
    }

    fn block(&mut self, statements: &[Statement]) -> Step<Flow> {
        self.variables.enter();
        let mut flow = Flow::Next;
        for statement in statements {
            flow = self.statement(statement)?;
            if flow != Flow::Next {
                break;
            }
        }
        self.variables.leave();
        Ok(flow)
    }

    fn body(&mut self, statement: &Statement) -> Step<Flow> {
        self.variables.enter();
        let flow = self.statement(statement)?;
        self.variables.leave();
        Ok(flow)
    }

    fn statement(&mut self, statement: &Statement) -> Step<Flow> {
        match statement {
            Statement::Block(statements) => return self.block(statements),
            Statement::Definition { name, value, .. } => {
                let value = self.value(value)?;
                self.variables.define(&name.text, value);
            }
            Statement::Assignment { name, how, place, value } => {
                self.assignment(name, *how, *place, value)?;
            }
            Statement::Expression(Expression::Call(call)) => {
                self.call(call)?;
            }
            Statement::Expression(value) => {
                self.value(value)?;
            }
            Statement::If { condition, then, other, .. } => {
                return self.choice(condition, then, other.as_deref());
            }
            Statement::While { place, condition, body } => {
                self.while_loop(*place, condition, body)?;
            }
            Statement::Do { place, body, condition } => self.do_loop(*place, body, condition)?,
            Statement::For(counting) => self.for_loop(counting)?,
            Statement::Break(_) => return Ok(Flow::Break),
            Statement::Continue(_) => return Ok(Flow::Continue),
            Statement::Return { place, value } => {
                let value = value.as_ref().expect("a checked return has a value");
                let value = self.value(value)?.int();
                return over(Ending::Returned(value), *place);
            }
        }
        Ok(Flow::Next)
    }

    fn assignment(
        &mut self,
        name: &Name,
        how: Assignment,
        place: Place,
        value: &Expression,
    ) -> Step<()> {
        let value = match how {
            Assignment::Plain => self.value(value)?,
            Assignment::Modify(operator) => {
                let left = self.variable(name);
                self.operation(left, operator, place, value)?
            }
        };
        self.assign(name, value);
        Ok(())
    }

    fn choice(
        &mut self,
        condition: &Expression,
        then: &Statement,
        other: Option<&Statement>,
    ) -> Step<Flow> {
        if self.value(condition)?.truth() {
            return self.body(then);
        }
        match other {
            Some(other) => self.body(other),
            None => Ok(Flow::Next),
        }
    }

    /// Spends a tick for the loop at a place.
    fn tick(&mut self, place: Place) -> Step<()> {
        if self.spent == self.ticks {
            return over(Ending::Waiting, place);
        }
        self.spent += 1;
        Ok(())
    }

    fn while_loop(&mut self, place: Place, condition: &Expression, body: &Statement) -> Step<()> {
        loop {
            self.tick(place)?;
            if !self.value(condition)?.truth() || self.body(body)? == Flow::Break {
                return Ok(());
            }
        }
    }

    fn do_loop(&mut self, place: Place, body: &Statement, condition: &Expression) -> Step<()> {
        loop {
            self.tick(place)?;
            if self.body(body)? == Flow::Break || !self.value(condition)?.truth() {
                return Ok(());
            }
        }
    }

    fn for_loop(&mut self, counting: &For) -> Step<()> {
        let start = self.value(&counting.start)?;
        let stop = self.value(&counting.stop)?.int();
        self.variables.enter();
        self.variables.define(&counting.name.text, start);
        loop {
            self.tick(counting.place)?;
            if self.variable(&counting.name).int() >= stop
                || self.body(&counting.body)? == Flow::Break
            {
                break;
            }
            let next = self.variable(&counting.name).int().wrapping_add(1);
            self.assign(&counting.name, Value::Int(next));
        }
        self.variables.leave();
        Ok(())
    }
}

/// Expressions.
impl Runner {
    fn variable(&self, name: &Name) -> Value {
        *self.variables.find(&name.text).expect("a checked name is in force")
    }

    fn assign(&mut self, name: &Name, value: Value) {
        *self.variables.find_mut(&name.text).expect("a checked name is in force") = value;
    }

    fn value(&mut self, expression: &Expression) -> Step<Value> {
        Ok(match expression {
            Expression::Constant(value) => *value,
            Expression::Variable(name) => self.variable(name),
            Expression::Call(call) => self.call(call)?.expect("a checked value is not void"),
            Expression::Unary { operator, operand, .. } => self.value(operand)?.unary(*operator),
            Expression::Chain { first, rest } => self.chain(first, rest)?,
            Expression::Brackets(inner) => self.value(inner)?,
        })
    }

    fn chain(&mut self, first: &Expression, rest: &[Link]) -> Step<Value> {
        let mut left = self.value(first)?;
        for link in rest {
            left = self.operation(left, link.operator, link.place, &link.right)?;
        }
        Ok(left)
    }

    /// An operator between a value and an expression, which may not be worked out at all.
    fn operation(
        &mut self,
        left: Value,
        operator: Binary,
        place: Place,
        right: &Expression,
    ) -> Step<Value> {
        match (operator, left) {
            (Binary::And, Value::Bool(false)) | (Binary::Or, Value::Bool(true)) => Ok(left),
            _ => {
                let right = self.value(right)?;
                left.binary(operator, right).or_else(|_| over(Ending::Divided, place))
            }
        }
    }

    /// A call's answer, nothing for a void one.
    fn call(&mut self, call: &Call) -> Step<Option<Value>> {
        let mut arguments = Vec::new();
        for argument in &call.arguments {
            arguments.push(self.value(argument)?.int());
        }
        self.ask(call, &arguments).or_else(|refusal| over(Ending::Board(refusal), call.name.place))
    }

    fn ask(&mut self, call: &Call, arguments: &[i32]) -> Result<Option<Value>, BoardRefusal> {
        let answer = match (Function::named(&call.name.text), arguments) {
            (Some(Function::Zone), &[index]) => self.board.zone(index)?,
            (Some(Function::Columns), []) => self.board.columns(),
            (Some(Function::Rows), []) => self.board.rows(),
            (Some(Function::Report), &[value]) => {
                self.board.report(value)?;
                return Ok(None);
            }
            _ => unreachable!("a checked call fits"),
        };
        Ok(Some(Value::Int(answer)))
    }
}
