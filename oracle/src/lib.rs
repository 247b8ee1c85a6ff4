//! A second interpreter of FenneC, written from `docs/LANGUAGE.md` alone, with
//! a generator of scripts and a comparison of other programs with itself.
//!
//! The way of the data: `lexer` (bytes to tokens), `parser` (tokens to a
//! tree), `checker` (names and types), `runner` (the run on a board). `answer`
//! joins them into the texts that the programs print.

pub mod answer;
pub mod board;
pub mod checker;
pub mod compare;
pub mod generate;
pub mod histogram;
pub mod levels;
pub mod lexer;
pub mod parser;
pub mod random;
pub mod refusal;
pub mod runner;

pub mod token;
pub mod tree;
pub mod types;
pub mod value;
