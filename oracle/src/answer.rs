//! What the programs print for a source.

use crate::board::Board;
use crate::checker;
use crate::lexer;
use crate::parser;
use crate::refusal::Refusal;
use crate::runner::{self, Outcome};
use crate::token::Token;
use crate::tree::Script;

/// The ticks that the program grants.
pub const TICKS: u64 = 1_000;

/// The tree of an accepted source.
pub fn accept(source: &[u8]) -> Result<Script, Refusal> {
    let script = parser::parse(source, &lexer::read(source)?)?;
    checker::check(&script)?;
    Ok(script)
}

/// The run of an accepted source on the fixed board.
pub fn outcome(source: &[u8], ticks: u64) -> Result<Outcome, Refusal> {
    let script = accept(source)?;
    Ok(runner::run(&script, Board::fixed(), ticks))
}

/// What the program `fennec` prints.
pub fn run(source: &[u8]) -> String {
    match outcome(source, TICKS) {
        Ok(outcome) => listing(&outcome),
        Err(refusal) => format!("{refusal}\n"),
    }
}

/// Reports, ending and ticks.
pub fn listing(outcome: &Outcome) -> String {
    let reports = outcome.board.reports().iter().map(|value| format!("report {value}\n"));
    let end = outcome.end;
    let (name, value) = (end.ending.name(), end.ending.value());
    let last = format!("ending {name} {value} {}\nticks {}\n", end.place, outcome.spent);
    reports.chain([last]).collect()
}

/// What the C check answers: 0, or the number times 65,536 plus the place.
pub fn check(source: &[u8]) -> String {
    let answer = match accept(source) {
        Ok(_) => 0,
        Err(refusal) => refusal.fault.number() as usize * 65_536 + refusal.place,
    };
    format!("{answer}\n")
}

/// What the program `tokens` prints.
pub fn tokens(source: &[u8]) -> String {
    match lexer::read(source) {
        Ok(tokens) => {
            let lines = tokens.iter().map(|token| token_line(source, token));
            lines.chain([format!("tokens {}\n", tokens.len())]).collect()
        }
        Err(refusal) => format!("{refusal}\n"),
    }
}

fn token_line(source: &[u8], token: &Token) -> String {
    let Token { kind, place, length } = *token;
    let text = String::from_utf8_lossy(&source[place..place + length]);
    format!("{} {place} {length} {} {text}\n", kind.word(), kind.value())
}

/// What the program `outline` prints.
pub fn outline(source: &[u8]) -> String {
    match lexer::read(source).and_then(|tokens| parser::parse(source, &tokens)) {
        Ok(_) => "accepted\n".to_owned(),
        Err(refusal) => format!("{refusal}\n"),
    }
}
