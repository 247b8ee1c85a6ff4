//! Bugs planted one at a time in a copy of this interpreter: the comparison
//! must find each of them.
//!
//! `cargo test --release --test planted -- --ignored --nocapture` builds the
//! copy once for each bug, so it takes minutes and is not run with the others.

use std::fs;
use std::path::{Path, PathBuf};
use std::process::Command;

use oracle::compare::{Comparison, Failure, Rival, ROLES};

/// A change of one spot in one file of `src`.
struct Bug {
    file: &'static str,
    old: &'static str,
    new: &'static str,
}

const fn bug(file: &'static str, old: &'static str, new: &'static str) -> Bug {
    Bug { file, old, new }
}

#[rustfmt::skip]
const BUGS: &[Bug] = &[
    // Reading.
    bug("lexer.rs", "source.len() > MOST_BYTES", "source.len() >= MOST_BYTES"),
    bug("lexer.rs", "tokens.len() == MOST_TOKENS", "tokens.len() > MOST_TOKENS"),
    bug("lexer.rs", "reader.next_token()?", "reader.next_token().map_err(|bad| if tokens.len() == MOST_TOKENS { Fault::TooManyTokens.at(bad.place) } else { bad })?"),
    bug("lexer.rs", "byte == b'\\n'", "byte == b'\\n' || byte == b'\\r'"),
    bug("lexer.rs", "long_comment(comment).ok_or", "long_comment(&self.rest()[1..]).map(|length| length - 1).ok_or"),
    bug("lexer.rs", ".position(|pair| pair == b\"*/\")", ".rposition(|pair| pair == b\"*/\")"),
    bug("lexer.rs", "b'\\n' | b'\\r', ..", "b'\\n' | b'\\r' | b'\\x0c', .."),
    bug("lexer.rs", "[b'0', b'x', digit, ..] if digit.is_ascii_hexdigit()", "[b'0', b'x', _, ..]"),
    bug("lexer.rs", "[b'0', b'x', digit", "[b'0', b'x' | b'X', digit"),
    bug("lexer.rs", "(16, 2)", "(16, 1)"),
    bug("lexer.rs", "value.checked_mul(i32::try_from(radix).ok()?)?.checked_add", "value.checked_mul(i32::try_from(radix).ok()?)?.wrapping_add(0).checked_sub"),
    bug("lexer.rs", "b'f' => 12", "b'f' => 11"),
    bug("lexer.rs", "b'0' => 0", "b'0' => 48"),
    bug("lexer.rs", "plain @ 32..=126", "plain @ 32..=127"),
    bug("lexer.rs", "plain @ 32..=126", "plain @ 33..=126"),
    bug("lexer.rs", "if !matches!(plain, b'\\'' | b'\\\\')", "if !matches!(plain, b'\\'' | b'\\\\' | b'\"')"),
    bug("lexer.rs", ".max_by_key(", ".min_by_key("),
    bug("lexer.rs", "letter.is_ascii_alphabetic()", "letter.is_ascii_alphabetic() || letter == b'_'"),
    bug("token.rs", "To = \"to\",", "To = \"To\","),
    // Grammar and depth.
    bug("parser.rs", "MOST_DEPTH: usize = 32", "MOST_DEPTH: usize = 33"),
    bug("parser.rs", "MOST_DEPTH: usize = 32", "MOST_DEPTH: usize = 31"),
    bug("parser.rs", "Box::new(self.statement(depth + 1)?)", "Box::new(self.statement(depth)?)"),
    bug("parser.rs", "self.braces(depth + 1)", "self.braces(depth)"),
    bug("parser.rs", "self.unary(depth + 1)", "self.unary(depth)"),
    bug("parser.rs", "self.unary(depth + 1)?", "self.chain(4, depth + 1)?"),
    bug("parser.rs", "let inner = self.expression(depth + 1)?", "let inner = self.expression(depth)?"),
    bug("parser.rs", "self.arguments(depth)?", "self.arguments(depth - 1)?"),
    bug("parser.rs", "self.arguments(depth)?", "self.arguments(depth + 1)?"),
    bug("parser.rs", "if !begins {", "if !begins && depth <= MOST_DEPTH {"),
    bug("parser.rs", "Some(_) => parser.unexpected(),", "Some(_) => Ok(script),"),
    bug("parser.rs", "map_or(self.source.len(), ", "map_or(self.tokens.last().map_or(0, |last| last.place + last.length), "),
    bug("parser.rs", "kind == Type::Int && name.text == \"main\"", "name.text == \"main\""),
    bug("parser.rs", "kind == Type::Int && name.text == \"main\"", "kind == Type::Int"),
    bug("parser.rs", "            self.name()?;\n", "            if !self.at_mark(Mark::Close) { self.name()?; }\n"),
    bug("parser.rs", "self.mark(Mark::Semicolon)?;\n        Ok(Statement::Do", "if self.at_mark(Mark::Semicolon) { self.advance(); }\n        Ok(Statement::Do"),
    bug("parser.rs", "if self.at_keyword(Keyword::Else) {", "if depth == 1 && self.at_keyword(Keyword::Else) {"),
    bug("parser.rs", "while self.at_mark(Mark::Comma) {", "if self.at_mark(Mark::Comma) {"),
    bug("parser.rs", "return self.expression_statement(depth),\n            },", "Assignment::Plain,\n            },"),
    bug("types.rs", "    &[Mark::Or],\n    &[Mark::And],", "    &[Mark::And],\n    &[Mark::Or],"),
    bug("types.rs", "    &[Mark::Plus, Mark::Minus],\n    &[Mark::Star, Mark::Slash, Mark::Percent],", "    &[Mark::Plus, Mark::Minus, Mark::Star, Mark::Slash, Mark::Percent],\n    &[],"),
    bug("types.rs", "    &[Mark::Equal, Mark::Unequal],\n    &[Mark::Less, Mark::LessEqual, Mark::Greater, Mark::GreaterEqual],", "    &[Mark::Less, Mark::LessEqual, Mark::Greater, Mark::GreaterEqual],\n    &[Mark::Equal, Mark::Unequal],"),
    // Names.
    bug("checker.rs", "MOST_CELLS: usize = 64", "MOST_CELLS: usize = 65"),
    bug("checker.rs", "MOST_CELLS: usize = 64", "MOST_CELLS: usize = 63"),
    bug("checker.rs", "cells: 2", "cells: 1"),
    bug("checker.rs", "checker.levels.define(\"main\", Symbol::Main);", ""),
    bug("checker.rs", "Symbol::Variable { .. } | Symbol::Main => Err(Fault::WrongUse.at(name.place)),", "_ => Err(Fault::AbsentName.at(name.place)),"),
    bug("checker.rs", ".filter(|known| known.answer() == *answer && known.parameter() == *parameter)", ".filter(|known| known.parameter() == *parameter)"),
    bug("checker.rs", ".filter(|known| known.answer() == *answer && known.parameter() == *parameter)", ".filter(|known| known.answer() == *answer)"),
    bug("checker.rs", "        self.levels.enter();\n        self.statement(statement)?;\n        self.levels.leave();", "        self.statement(statement)?;"),
    bug("checker.rs", "        self.levels.enter();\n        for statement in statements {\n            self.statement(statement)?;\n        }\n        self.levels.leave();", "        for statement in statements {\n            self.statement(statement)?;\n        }"),
    bug("checker.rs", "fits(self.value(value)? == *kind, name.place)?;\n                self.define(name, Symbol::Variable { kind: *kind, cells: 1 })", "let found = self.value(value)?;\n                self.define(name, Symbol::Variable { kind: *kind, cells: 1 })?;\n                fits(found == *kind, name.place)"),
    bug("checker.rs", "fits(self.value(value)? == *kind, name.place)?;\n                self.define(name, Symbol::Variable { kind: *kind, cells: 1 })", "self.define(name, Symbol::Variable { kind: *kind, cells: 1 })?;\n                fits(self.value(value)? == *kind, name.place)"),
    bug("checker.rs", "let kind = self.variable(name)?;\n        let right = self.value(value)?;", "let right = self.value(value)?;\n        let kind = self.variable(name)?;"),
    bug("checker.rs", "let function = self.function(&call.name)?;\n        let mut arguments = Vec::new();\n        for argument in &call.arguments {\n            arguments.push(self.value(argument)?);\n        }", "let mut arguments = Vec::new();\n        for argument in &call.arguments {\n            arguments.push(self.value(argument)?);\n        }\n        let function = self.function(&call.name)?;"),
    bug("levels.rs", "self.innermost_first().find(", "self.open.iter().flatten().find("),
    bug("levels.rs", "known == name))\n", "known.get(..31).unwrap_or(known) == name.get(..31).unwrap_or(name)))\n"),
    bug("checker.rs", "        if self.levels.defined_here(&name.text) {\n            return Err(Fault::DefinedTwice.at(name.place));\n        }\n        if self.cells_in_use() + cells_of(symbol) > MOST_CELLS {\n            return Err(Fault::TooManyCells.at(name.place));\n        }\n", "        if self.cells_in_use() + cells_of(symbol) > MOST_CELLS {\n            return Err(Fault::TooManyCells.at(name.place));\n        }\n        if self.levels.defined_here(&name.text) {\n            return Err(Fault::DefinedTwice.at(name.place));\n        }\n"),
    bug("checker.rs", "                let function = Function::named", "                if self.levels.defined_here(&name.text) {\n                    return Err(Fault::DefinedTwice.at(name.place));\n                }\n                let function = Function::named"),
    // Types.
    bug("checker.rs", "self.loop_body(body)?;\n                self.condition(condition, *place)", "self.condition(condition, *place)?;\n                self.loop_body(body)"),
    bug("checker.rs", "self.condition(condition, *place)?;\n                self.loop_body(body)", "self.loop_body(body)?;\n                self.condition(condition, *place)"),
    bug("checker.rs", "let stop = self.value(&counting.stop)?;", "fits(start == Type::Int, counting.place)?;\n        let stop = self.value(&counting.stop)?;"),
    bug("checker.rs", "stop == Type::Int, counting.place)", "stop == Type::Int, counting.name.place)"),
    bug("checker.rs", "fits(result == Some(kind), place)", "fits(result == Some(kind), name.place)"),
    bug("checker.rs", "self.call(call)?.ok_or(Fault::Mismatch.at(call.name.place))", "Ok(self.call(call)?.unwrap_or(Type::Int))"),
    bug("checker.rs", "arguments.iter().copied().eq(function.parameter())", "arguments.first().copied() == function.parameter()"),
    bug("checker.rs", "fits(kind == Some(Type::Int), place)", "fits(kind.is_some(), place)"),
    bug("checker.rs", "if self.loops == 0 {", "if self.loops > 99 {"),
    bug("checker.rs", "        self.loops -= 1;\n", ""),
    bug("checker.rs", "fits(value.kind() == *kind, name.place)?;", ""),
    bug("types.rs", "Binary::Relation(_) => left.is_number().then_some(Type::Bool)", "Binary::Relation(_) => Some(Type::Bool)"),
    bug("types.rs", "Binary::Equal | Binary::Unequal => Some(Type::Bool)", "Binary::Equal | Binary::Unequal => left.is_number().then_some(Type::Bool)"),
    bug("types.rs", "Unary::Negate => operand.is_number().then_some(operand)", "Unary::Negate => (operand == Type::Int).then_some(operand)"),
    // Values.
    bug("value.rs", "Value::Char(value.wrapping_neg())", "Value::Char(value.saturating_neg())"),
    bug("value.rs", "Value::Int(value.wrapping_neg())", "Value::Int(value.saturating_neg())"),
    bug("value.rs", "-> Result<i8, Divided> {\n    Ok(match operator {\n        Arithmetic::Add => left.wrapping_add(right)", "-> Result<i8, Divided> {\n    Ok(match operator {\n        Arithmetic::Add => left.saturating_add(right)"),
    bug("value.rs", "-> Result<i32, Divided> {\n    Ok(match operator {\n        Arithmetic::Add => left.wrapping_add(right)", "-> Result<i32, Divided> {\n    Ok(match operator {\n        Arithmetic::Add => left.saturating_add(right)"),
    bug("value.rs", "Relation::LessEqual => left <= right", "Relation::LessEqual => left < right"),
    bug("value.rs", "Relation::Greater => left > right", "Relation::Greater => left >= right"),
    bug("value.rs", "Value::Char(arithmetic_of_chars(operator, left, right)?)", "Value::Char(arithmetic_of_ints(operator, left.into(), right.into())?.clamp(-128, 127) as i8)"),
    bug("value.rs", "Value::Int(arithmetic_of_ints(operator, left, right)?)", "Value::Int(if operator == Arithmetic::Divide && right != 0 { left.wrapping_div_euclid(right) } else { arithmetic_of_ints(operator, left, right)? })"),
    bug("value.rs", "Value::Int(arithmetic_of_ints(operator, left, right)?)", "Value::Int(if operator == Arithmetic::Remain && right != 0 { left.wrapping_rem_euclid(right) } else { arithmetic_of_ints(operator, left, right)? })"),
    bug("value.rs", "Value::Int(arithmetic_of_ints(operator, left, right)?)", "Value::Int(if operator == Arithmetic::Divide && right != 0 { left.saturating_div(right) } else { arithmetic_of_ints(operator, left, right)? })"),
    bug("value.rs", "Value::Char(arithmetic_of_chars(operator, left, right)?)", "Value::Char(if operator == Arithmetic::Divide && right != 0 { left.saturating_div(right) } else { arithmetic_of_chars(operator, left, right)? })"),
    bug("value.rs", "Value::Char(arithmetic_of_chars(operator, left, right)?)", "Value::Char(if operator == Arithmetic::Remain && right != 0 { left.wrapping_rem_euclid(right) } else { arithmetic_of_chars(operator, left, right)? })"),
    // The run.
    bug("runner.rs", "if self.spent == self.ticks {", "if self.spent + 1 == self.ticks {"),
    bug("runner.rs", "return over(Ending::Waiting, place);", "self.spent += 1;\n            return over(Ending::Waiting, place);"),
    bug("runner.rs", "int() >= stop\n", "int() > stop\n"),
    bug("runner.rs", "int() >= stop\n", "int() >= self.value(&counting.stop)?.int()\n"),
    bug("runner.rs", "let start = self.value(&counting.start)?;\n        let stop = self.value(&counting.stop)?.int();", "let stop = self.value(&counting.stop)?.int();\n        let start = self.value(&counting.start)?;"),
    bug("runner.rs", "int().wrapping_add(1)", "int().saturating_add(1)"),
    bug("runner.rs", "self.tick(place)?;\n            if self.body(body)? == Flow::Break || !self.value(condition)?.truth() {", "let flow = self.body(body)?;\n            self.tick(place)?;\n            if flow == Flow::Break || !self.value(condition)?.truth() {"),
    bug("runner.rs", "if self.body(body)? == Flow::Break || !self.value(condition)?.truth() {", "let flow = self.body(body)?;\n            if flow == Flow::Break || flow == Flow::Next && !self.value(condition)?.truth() {"),
    bug("runner.rs", "if !self.value(condition)?.truth() || self.body(body)? == Flow::Break {", "if !self.value(condition)?.truth() || self.body(body)? != Flow::Next {"),
    bug("runner.rs", "(Binary::And, Value::Bool(false)) | (Binary::Or, Value::Bool(true)) => Ok(left),", "(Binary::Or, Value::Bool(true)) => Ok(left),"),
    bug("runner.rs", "(Binary::And, Value::Bool(false)) | (Binary::Or, Value::Bool(true)) => Ok(left),", "(Binary::And, Value::Bool(false)) => Ok(left),"),
    bug("runner.rs", "place: script.end }", "place: script.end + 1 }"),
    bug("runner.rs", "over(Ending::Board(refusal), call.name.place)", "over(Ending::Board(refusal), 0)"),
    bug("runner.rs", "(Some(Function::Columns), []) => self.board.columns()", "(Some(Function::Columns), []) => self.board.rows()"),
    bug("runner.rs", "        self.variables.enter();\n        let flow = self.statement(statement)?;\n        self.variables.leave();", "        let flow = self.statement(statement)?;"),
    bug("runner.rs", "Ending::Waiting | Ending::Divided => 0", "Ending::Waiting | Ending::Divided => 1"),
    bug("levels.rs", ".iter_mut()\n            .rev()\n", ".iter_mut()\n"),
    bug("board.rs", "self.reports.len() >= self.allowance", "self.reports.len() > self.allowance"),
    bug("board.rs", "self.reports.push(value);", "self.reports.insert(0, value);"),
    bug("board.rs", "usize::try_from(index).map_err(|_| BoardRefusal::NoZone)?", "index.unsigned_abs() as usize"),
];

fn here() -> &'static Path {
    Path::new(env!("CARGO_MANIFEST_DIR"))
}

/// A copy of the sources, beside the other build results.
fn copy_sources(to: &Path) {
    fs::create_dir_all(to).expect("a folder");
    fs::copy(here().join("Cargo.toml"), to.join("Cargo.toml")).expect("a copy");
    copy_folder(&here().join("src"), &to.join("src"));
}

fn copy_folder(from: &Path, to: &Path) {
    fs::create_dir_all(to).expect("a folder");
    for entry in fs::read_dir(from).expect("a folder") {
        let path = entry.expect("an entry").path();
        let copy = to.join(path.file_name().expect("a name"));
        if path.is_dir() {
            copy_folder(&path, &copy);
        } else {
            fs::copy(&path, &copy).expect("a copy");
        }
    }
}

/// Plants a bug, builds the copy, and takes the bug out again.
fn build(copy: &Path, bug: &Bug) -> PathBuf {
    let path = copy.join("src").join(bug.file);
    let sound = fs::read_to_string(&path).expect("a source");
    assert_eq!(sound.matches(bug.old).count(), 1, "{}: {}", bug.file, bug.old);
    fs::write(&path, sound.replace(bug.old, bug.new)).expect("a change");
    let built = Command::new(env!("CARGO"))
        .args(["build", "--quiet", "--bin", "oracle"])
        .env("RUSTFLAGS", "-Awarnings")
        .current_dir(copy)
        .status()
        .expect("cargo");
    fs::write(&path, sound).expect("a change back");
    assert!(built.success(), "{}: {}", bug.file, bug.new);
    copy.join("target/debug/oracle")
}

/// The script that shows the bug, if one of the first so many does.
fn found_at(program: &Path, count: u64) -> Option<u64> {
    let rival = Rival::new(ROLES[0], &format!("{} run", program.display()));
    let comparison = Comparison { seed: 1, count, rivals: vec![rival] };
    match comparison.run() {
        Ok(_) => None,
        Err(Failure::Difference(difference)) => Some(difference.index),
        Err(failure) => panic!("{failure}"),
    }
}

#[test]
#[ignore = "builds the interpreter once for each bug"]
fn every_planted_bug_is_found() {
    let copy = here().join("target/planted");
    copy_sources(&copy);
    let mut missed = Vec::new();
    for bug in BUGS {
        let program = build(&copy, bug);
        let found = found_at(&program, 5_000);
        let number = found.map_or("missed".to_owned(), |index| index.to_string());
        println!("{number:>6}  {}: {}", bug.file, bug.new.lines().next().unwrap_or_default());
        missed.extend(found.is_none().then_some(bug.new));
    }
    assert!(missed.is_empty(), "{} of {} missed: {missed:#?}", missed.len(), BUGS.len());
}
