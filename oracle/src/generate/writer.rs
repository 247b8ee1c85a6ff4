//! What a script under construction knows: its words so far and its names.

use super::words::{self, NAMES};
use crate::checker::MOST_CELLS;
use crate::levels::Levels;
use crate::random::Random;
use crate::types::{Function, Type};

/// What a name means to the script so far.
#[derive(Clone, Copy, Debug, PartialEq, Eq)]
pub enum Meaning {
    /// A variable; a steady one is left alone, so that its loop comes to an end.
    Variable { kind: Type, steady: bool, cells: usize },
    /// A function of the board.
    Function(Function),
    /// The function main.
    Main,
}

/// How large and how wrong a script becomes.
#[derive(Clone, Copy, Debug)]
pub struct Plan {
    /// About so many words, then it comes to an end.
    pub most_words: usize,
    /// No statement is deeper.
    pub most_depth: usize,
    /// So many statements and declarations of a hundred are faulty.
    pub faults: usize,
}

/// A script under construction.
pub struct Writer<'r> {
    pub random: &'r mut Random,
    pub plan: Plan,
    pub names: Levels<Meaning>,
    /// How many loops are open.
    pub loops: usize,
    words: Vec<String>,
}

impl<'r> Writer<'r> {
    /// Nothing written, no name known.
    pub fn new(random: &'r mut Random, plan: Plan) -> Self {
        Writer { random, plan, names: Levels::new(), loops: 0, words: Vec::new() }
    }

    /// The words written.
    pub fn into_words(self) -> Vec<String> {
        self.words
    }

    /// Writes one word.
    pub fn word(&mut self, word: impl Into<String>) {
        self.words.push(word.into());
    }

    /// Writes words that are parted by spaces.
    pub fn say(&mut self, words: &str) {
        self.words.extend(words.split_whitespace().map(str::to_owned));
    }

    /// Whether the script may still grow.
    pub fn has_room(&self) -> bool {
        self.words.len() < self.plan.most_words
    }

    /// A type, ints more often than others.
    pub fn any_type(&mut self) -> Type {
        self.random.weighted(&[(5, Type::Int), (3, Type::Char), (2, Type::Bool)])
    }

    /// Writes a constant.
    pub fn constant(&mut self, kind: Type) {
        let constant = words::constant(self.random, kind);
        self.word(constant);
    }

    /// A name that the innermost level does not define yet.
    pub fn fresh_name(&mut self) -> String {
        for _ in 0..8 {
            let name = self.random.pick(NAMES);
            if !self.names.defined_here(name) {
                return name.to_owned();
            }
        }
        let mut number = 0;
        while self.names.defined_here(&format!("v{number}")) {
            number += 1;
        }
        format!("v{number}")
    }

    /// Whether so many cells are free.
    pub fn has_cells(&self, cells: usize) -> bool {
        let cells_of = |meaning: &Meaning| match meaning {
            Meaning::Variable { cells, .. } => *cells,
            Meaning::Function(_) | Meaning::Main => 0,
        };
        let in_use: usize =
            self.names.innermost_first().map(|(_, meaning)| cells_of(meaning)).sum();
        in_use + cells <= MOST_CELLS
    }

    /// Makes a variable known.
    pub fn define(&mut self, name: &str, kind: Type, steady: bool, cells: usize) {
        self.names.define(name, Meaning::Variable { kind, steady, cells });
    }

    /// A variable in force with such a meaning.
    pub fn some_variable(&mut self, wanted: impl Fn(Type, bool) -> bool) -> Option<String> {
        let found: Vec<String> = self
            .names
            .innermost_first()
            .filter(|(name, meaning)| {
                let fits = match meaning {
                    Meaning::Variable { kind, steady, .. } => wanted(*kind, *steady),
                    Meaning::Function(_) | Meaning::Main => false,
                };
                fits && self.names.find(name) == Some(meaning)
            })
            .map(|(name, _)| name.clone())
            .collect();
        (!found.is_empty()).then(|| found[self.random.below(found.len())].clone())
    }

    /// The type of a variable in force.
    pub fn type_of(&self, name: &str) -> Option<Type> {
        match self.names.find(name) {
            Some(Meaning::Variable { kind, .. }) => Some(*kind),
            _ => None,
        }
    }

    /// Whether the function can be called here.
    pub fn can_call(&self, function: Function) -> bool {
        self.names.find(function.name()) == Some(&Meaning::Function(function))
    }
}
