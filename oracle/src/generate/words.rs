//! The texts of single tokens.

use crate::random::Random;
use crate::token::{Keyword, Mark};
use crate::types::Type;

/// Names that scripts choose from; few, so that they often hide each other.
pub const NAMES: &[&str] = &[
    "a",
    "b",
    "c",
    "i",
    "n",
    "x",
    "y",
    "sum",
    "best",
    "k2",
    "main",
    "zone",
    "rows",
    "report",
    "columns",
    "intx",
    "to_",
    "A",
    "a_b",
    "a_name_that_is_longer_than_thirty_one_bytes_1",
    "a_name_that_is_longer_than_thirty_one_bytes_2",
];

/// Numbers near which something changes.
const EDGES: &[&str] = &[
    "2147483647",
    "2147483646",
    "0x7fffffff",
    "0x7FFFFFFF",
    "1073741824",
    "65536",
    "46341",
    "0x8000",
    "255",
    "256",
    "127",
    "128",
    "0xff",
    "007",
    "0x0",
    "000",
    "1000",
];

/// A constant of a type.
pub fn constant(random: &mut Random, kind: Type) -> String {
    match kind {
        Type::Bool => random.pick(&["true", "false"]).to_owned(),
        Type::Char => character(random),
        Type::Int => int(random),
    }
}

fn int(random: &mut Random) -> String {
    match random.below(10) {
        0..=5 => random.below(13).to_string(),
        6 => random.below(2_000).to_string(),
        7 => format!("0x{:x}", random.below(4_096)),
        8 => random.below(2_147_483_648).to_string(),
        _ => random.pick(EDGES).to_owned(),
    }
}

/// An int that is not 0.
pub fn divisor(random: &mut Random) -> String {
    random.pick(&["1", "2", "3", "7", "10", "12", "0x10", "255", "1000", "2147483647"]).to_owned()
}

fn character(random: &mut Random) -> String {
    if random.percent(30) {
        return escape(random);
    }
    let plain = random.between(32, 126) as u8;
    match plain {
        b'\'' | b'\\' => escape(random),
        _ => format!("'{}'", char::from(plain)),
    }
}

fn escape(random: &mut Random) -> String {
    format!("'\\{}'", char::from(random.pick(b"ntrabfv0\\'\"?")))
}

/// Any token at all.
pub fn any(random: &mut Random) -> String {
    match random.below(8) {
        0 | 1 => random.pick(NAMES).to_owned(),
        2 => int(random),
        3 => character(random),
        4 | 5 => random.pick(Keyword::ALL).text().to_owned(),
        _ => random.pick(Mark::ALL).text().to_owned(),
    }
}

/// Another token that a reader may take for this one.
pub fn alike(random: &mut Random, word: &str) -> String {
    const GROUPS: &[&[&str]] = &[
        &["bool", "char", "int", "float", "void"],
        &["extern", "static"],
        &["if", "while", "for", "do", "else"],
        &["break", "continue", "return"],
        &["main", "zone", "x", "Main"],
        &["(", ")", "{", "}"],
        &[",", ";", "to"],
        &["=", "==", "+=", "-="],
        &["1", "'a'", "true", "x"],
        &["+", "-", "!", "*"],
    ];
    match GROUPS.iter().find(|group| group.contains(&word)) {
        Some(group) => random.pick(group).to_owned(),
        None => any(random),
    }
}
