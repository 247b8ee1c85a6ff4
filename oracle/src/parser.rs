//! Tokens to a tree, by recursive descent.
//!
//! Every function leaves the parser behind what it has read. Recursion goes
//! only where the depth grows, and the depth is limited.

use crate::refusal::{Fault, Place, Refusal};
use crate::token::{Keyword, Kind, Mark, Token};
use crate::tree::{Assignment, Call, Declaration, Expression, For, Link, Name, Script, Statement};
use crate::types::{Binary, Type, Unary, RANKS};
use crate::value::Value;

/// The greatest depth of a statement or an expression.
pub const MOST_DEPTH: usize = 32;

/// The tree of a source's tokens, or the first fault of its grammar.
pub fn parse(source: &[u8], tokens: &[Token]) -> Result<Script, Refusal> {
    let mut parser = Parser { source, tokens, next: 0 };
    let script = parser.script()?;
    match parser.peek() {
        None => Ok(script),
        Some(_) => parser.unexpected(),
    }
}

type Parsed<T> = Result<T, Refusal>;

struct Parser<'a> {
    source: &'a [u8],
    tokens: &'a [Token],
    next: usize,
}

/// What may be told from a definition's first tokens.
enum Header {
    Global,
    Main,
}

impl Parser<'_> {
    fn peek(&self) -> Option<Kind> {
        self.tokens.get(self.next).map(|token| token.kind)
    }

    /// The place of the next token, or the length of the source at its end.
    fn place(&self) -> Place {
        self.tokens.get(self.next).map_or(self.source.len(), |token| token.place)
    }

    fn unexpected<T>(&self) -> Parsed<T> {
        Err(Fault::Unexpected.at(self.place()))
    }

    fn advance(&mut self) -> Place {
        let place = self.place();
        self.next += 1;
        place
    }

    fn at_mark(&self, mark: Mark) -> bool {
        self.peek() == Some(Kind::Mark(mark))
    }

    fn at_keyword(&self, keyword: Keyword) -> bool {
        self.peek() == Some(Kind::Keyword(keyword))
    }

    fn mark(&mut self, mark: Mark) -> Parsed<Place> {
        if self.at_mark(mark) {
            Ok(self.advance())
        } else {
            self.unexpected()
        }
    }

    fn keyword(&mut self, keyword: Keyword) -> Parsed<Place> {
        if self.at_keyword(keyword) {
            Ok(self.advance())
        } else {
            self.unexpected()
        }
    }

    fn name(&mut self) -> Parsed<Name> {
        match self.tokens.get(self.next) {
            Some(&Token { kind: Kind::Name, place, length }) => {
                self.next += 1;
                let text = String::from_utf8_lossy(&self.source[place..place + length]);
                Ok(Name { text: text.into_owned(), place })
            }
            _ => self.unexpected(),
        }
    }

    fn type_here(&self) -> Option<Type> {
        match self.peek() {
            Some(Kind::Keyword(keyword)) => Type::named(keyword),
            _ => None,
        }
    }

    fn type_name(&mut self) -> Parsed<Type> {
        match self.type_here() {
            Some(kind) => {
                self.advance();
                Ok(kind)
            }
            None => self.unexpected(),
        }
    }

    fn constant_here(&self) -> Option<Value> {
        match self.peek()? {
            Kind::Number(value) => Some(Value::Int(value)),
            Kind::Character(value) => Some(Value::Char(value)),
            Kind::Keyword(Keyword::True) => Some(Value::Bool(true)),
            Kind::Keyword(Keyword::False) => Some(Value::Bool(false)),
            _ => None,
        }
    }
}

/// Declarations.
impl Parser<'_> {
    fn script(&mut self) -> Parsed<Script> {
        let mut declarations = Vec::new();
        loop {
            if self.at_keyword(Keyword::Extern) {
                declarations.push(self.external()?);
                continue;
            }
            let (header, kind, name) = self.header()?;
            match header {
                Header::Global => declarations.push(self.global(kind, name)?),
                Header::Main => {
                    let (body, end) = self.main()?;
                    return Ok(Script { declarations, body, end });
                }
            }
        }
    }

    fn external(&mut self) -> Parsed<Declaration> {
        self.keyword(Keyword::Extern)?;
        let answer = if self.at_keyword(Keyword::Void) {
            self.advance();
            None
        } else {
            Some(self.type_name()?)
        };
        let name = self.name()?;
        self.mark(Mark::Open)?;
        let mut parameter = None;
        if !self.at_mark(Mark::Close) {
            parameter = Some(self.type_name()?);
            self.name()?;
        }
        self.mark(Mark::Close)?;
        self.mark(Mark::Semicolon)?;
        Ok(Declaration::Extern { name, answer, parameter })
    }

    /// `[static] type name`, and whether a global or main follows.
    fn header(&mut self) -> Parsed<(Header, Type, Name)> {
        if self.at_keyword(Keyword::Static) {
            self.advance();
        }
        let kind = self.type_name()?;
        let name = self.name()?;
        let may_be_main = kind == Type::Int && name.text == "main";
        let header =
            if may_be_main && self.at_mark(Mark::Open) { Header::Main } else { Header::Global };
        Ok((header, kind, name))
    }

    fn global(&mut self, kind: Type, name: Name) -> Parsed<Declaration> {
        self.mark(Mark::Assign)?;
        let Some(value) = self.constant_here() else {
            return self.unexpected();
        };
        self.advance();
        self.mark(Mark::Semicolon)?;
        Ok(Declaration::Global { kind, name, value })
    }

    fn main(&mut self) -> Parsed<(Vec<Statement>, Place)> {
        self.mark(Mark::Open)?;
        self.mark(Mark::Close)?;
        self.braces(1)
    }
}

/// Statements.
impl Parser<'_> {
    /// Statements of a depth in braces, and the closing brace.
    fn braces(&mut self, depth: usize) -> Parsed<(Vec<Statement>, Place)> {
        self.mark(Mark::OpenBrace)?;
        let mut statements = Vec::new();
        while !self.at_mark(Mark::CloseBrace) {
            statements.push(self.statement(depth)?);
        }
        Ok((statements, self.advance()))
    }

    fn statement(&mut self, depth: usize) -> Parsed<Statement> {
        self.begin(depth, self.begins_statement())?;
        match self.peek() {
            Some(Kind::Mark(Mark::OpenBrace)) => Ok(Statement::Block(self.braces(depth + 1)?.0)),
            Some(Kind::Keyword(keyword)) => self.keyword_statement(keyword, depth),
            Some(Kind::Name) => self.assignment_or_expression(depth),
            _ => self.expression_statement(depth),
        }
    }

    /// Refuses a first token that begins nothing here, or that is too deep.
    fn begin(&self, depth: usize, begins: bool) -> Parsed<()> {
        if !begins {
            self.unexpected()
        } else if depth > MOST_DEPTH {
            Err(Fault::TooDeep.at(self.place()))
        } else {
            Ok(())
        }
    }

    fn begins_statement(&self) -> bool {
        let by_word = match self.peek() {
            Some(Kind::Mark(mark)) => mark == Mark::OpenBrace,
            Some(Kind::Keyword(keyword)) => matches!(
                keyword,
                Keyword::Bool
                    | Keyword::Char
                    | Keyword::Int
                    | Keyword::If
                    | Keyword::While
                    | Keyword::Do
                    | Keyword::For
                    | Keyword::Break
                    | Keyword::Continue
                    | Keyword::Return
            ),
            _ => false,
        };
        by_word || self.begins_expression()
    }

    fn keyword_statement(&mut self, keyword: Keyword, depth: usize) -> Parsed<Statement> {
        match keyword {
            Keyword::Bool | Keyword::Char | Keyword::Int => self.definition(depth),
            Keyword::If => self.choice(depth),
            Keyword::While => self.while_loop(depth),
            Keyword::Do => self.do_loop(depth),
            Keyword::For => self.for_loop(depth),
            Keyword::Break => Ok(Statement::Break(self.lone_word()?)),
            Keyword::Continue => Ok(Statement::Continue(self.lone_word()?)),
            Keyword::Return => self.return_statement(depth),
            _ => self.expression_statement(depth),
        }
    }

    fn definition(&mut self, depth: usize) -> Parsed<Statement> {
        let kind = self.type_name()?;
        let name = self.name()?;
        self.mark(Mark::Assign)?;
        let value = self.expression(depth)?;
        self.mark(Mark::Semicolon)?;
        Ok(Statement::Definition { kind, name, value })
    }

    /// A name stands here; the token after it decides.
    fn assignment_or_expression(&mut self, depth: usize) -> Parsed<Statement> {
        let how = match self.tokens.get(self.next + 1).map(|token| token.kind) {
            Some(Kind::Mark(Mark::Assign)) => Assignment::Plain,
            Some(Kind::Mark(mark)) => match Binary::of_modifier(mark) {
                Some(operator) => Assignment::Modify(operator),
                None => return self.expression_statement(depth),
            },
            _ => return self.expression_statement(depth),
        };
        let name = self.name()?;
        let place = self.advance();
        let value = self.expression(depth)?;
        self.mark(Mark::Semicolon)?;
        Ok(Statement::Assignment { name, how, place, value })
    }

    fn expression_statement(&mut self, depth: usize) -> Parsed<Statement> {
        let value = self.expression(depth)?;
        self.mark(Mark::Semicolon)?;
        Ok(Statement::Expression(value))
    }

    fn condition(&mut self, depth: usize) -> Parsed<Expression> {
        self.mark(Mark::Open)?;
        let condition = self.expression(depth)?;
        self.mark(Mark::Close)?;
        Ok(condition)
    }

    fn body(&mut self, depth: usize) -> Parsed<Box<Statement>> {
        Ok(Box::new(self.statement(depth + 1)?))
    }

    fn choice(&mut self, depth: usize) -> Parsed<Statement> {
        let place = self.keyword(Keyword::If)?;
        let condition = self.condition(depth)?;
        let then = self.body(depth)?;
        let mut other = None;
        if self.at_keyword(Keyword::Else) {
            self.advance();
            other = Some(self.body(depth)?);
        }
        Ok(Statement::If { place, condition, then, other })
    }

    fn while_loop(&mut self, depth: usize) -> Parsed<Statement> {
        let place = self.keyword(Keyword::While)?;
        let condition = self.condition(depth)?;
        let body = self.body(depth)?;
        Ok(Statement::While { place, condition, body })
    }

    fn do_loop(&mut self, depth: usize) -> Parsed<Statement> {
        let place = self.keyword(Keyword::Do)?;
        let body = self.body(depth)?;
        self.keyword(Keyword::While)?;
        let condition = self.condition(depth)?;
        self.mark(Mark::Semicolon)?;
        Ok(Statement::Do { place, body, condition })
    }

    fn for_loop(&mut self, depth: usize) -> Parsed<Statement> {
        let place = self.keyword(Keyword::For)?;
        self.mark(Mark::Open)?;
        self.keyword(Keyword::Int)?;
        let name = self.name()?;
        self.mark(Mark::Assign)?;
        let start = self.expression(depth)?;
        self.keyword(Keyword::To)?;
        let stop = self.expression(depth)?;
        self.mark(Mark::Close)?;
        let body = *self.body(depth)?;
        Ok(Statement::For(Box::new(For { place, name, start, stop, body })))
    }

    /// `break ;` or `continue ;`.
    fn lone_word(&mut self) -> Parsed<Place> {
        let place = self.advance();
        self.mark(Mark::Semicolon)?;
        Ok(place)
    }

    fn return_statement(&mut self, depth: usize) -> Parsed<Statement> {
        let place = self.keyword(Keyword::Return)?;
        let mut value = None;
        if !self.at_mark(Mark::Semicolon) {
            value = Some(self.expression(depth)?);
        }
        self.mark(Mark::Semicolon)?;
        Ok(Statement::Return { place, value })
    }
}

/// Expressions.
impl Parser<'_> {
    fn begins_expression(&self) -> bool {
        match self.peek() {
            Some(Kind::Name) => true,
            Some(Kind::Mark(mark)) => mark == Mark::Open || Unary::of(mark).is_some(),
            _ => self.constant_here().is_some(),
        }
    }

    fn expression(&mut self, depth: usize) -> Parsed<Expression> {
        self.chain(0, depth)
    }

    /// Operands joined by the operators of a rank.
    fn chain(&mut self, rank: usize, depth: usize) -> Parsed<Expression> {
        let Some(marks) = RANKS.get(rank) else {
            return self.unary(depth);
        };
        let first = self.chain(rank + 1, depth)?;
        let mut rest = Vec::new();
        while let Some(operator) = self.operator_among(marks) {
            let place = self.advance();
            let right = self.chain(rank + 1, depth)?;
            rest.push(Link { operator, place, right });
        }
        if rest.is_empty() {
            return Ok(first);
        }
        Ok(Expression::Chain { first: Box::new(first), rest })
    }

    fn operator_among(&self, marks: &[Mark]) -> Option<Binary> {
        match self.peek() {
            Some(Kind::Mark(mark)) if marks.contains(&mark) => Binary::of(mark),
            _ => None,
        }
    }

    fn unary(&mut self, depth: usize) -> Parsed<Expression> {
        self.begin(depth, self.begins_expression())?;
        let operator = match self.peek() {
            Some(Kind::Mark(mark)) => Unary::of(mark),
            _ => None,
        };
        let Some(operator) = operator else {
            return self.primary(depth);
        };
        let place = self.advance();
        let operand = Box::new(self.unary(depth + 1)?);
        Ok(Expression::Unary { operator, place, operand })
    }

    fn primary(&mut self, depth: usize) -> Parsed<Expression> {
        if let Some(value) = self.constant_here() {
            self.advance();
            return Ok(Expression::Constant(value));
        }
        if self.at_mark(Mark::Open) {
            self.advance();
            let inner = self.expression(depth + 1)?;
            self.mark(Mark::Close)?;
            return Ok(Expression::Brackets(Box::new(inner)));
        }
        let name = self.name()?;
        if !self.at_mark(Mark::Open) {
            return Ok(Expression::Variable(name));
        }
        let arguments = self.arguments(depth)?;
        Ok(Expression::Call(Call { name, arguments }))
    }

    fn arguments(&mut self, depth: usize) -> Parsed<Vec<Expression>> {
        self.mark(Mark::Open)?;
        let mut arguments = Vec::new();
        if !self.at_mark(Mark::Close) {
            arguments.push(self.expression(depth + 1)?);
            while self.at_mark(Mark::Comma) {
                self.advance();
                arguments.push(self.expression(depth + 1)?);
            }
        }
        self.mark(Mark::Close)?;
        Ok(arguments)
    }
}
