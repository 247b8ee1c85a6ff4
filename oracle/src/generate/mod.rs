//! Scripts from a seed: sound ones, damaged ones, and ones at every limit.

mod arithmetic;
mod damage;
mod edges;
mod expressions;
mod faulty;
mod grammar;
mod layout;
mod limits;
mod order;
mod program;
mod soup;
mod statements;
mod words;
mod writer;

use crate::random::Random;

/// The sorts of generated scripts.
#[derive(Clone, Copy, Debug, PartialEq, Eq)]
#[allow(missing_docs)]
pub enum Family {
    Sound,
    Arithmetic,
    Order,
    Faulty,
    Grammar,
    TokenDamage,
    ByteDamage,
    Bytes,
    Tokens,
    Depth,
    Cells,
    Numbers,
    Characters,
    Ticks,
    Board,
    Soup,
}

impl Family {
    /// Each sort with its weight.
    pub const WEIGHTED: &'static [(usize, Family)] = &[
        (26, Family::Sound),
        (4, Family::Arithmetic),
        (4, Family::Order),
        (20, Family::Faulty),
        (12, Family::Grammar),
        (8, Family::TokenDamage),
        (7, Family::ByteDamage),
        (2, Family::Bytes),
        (3, Family::Tokens),
        (6, Family::Depth),
        (3, Family::Cells),
        (5, Family::Numbers),
        (5, Family::Characters),
        (3, Family::Ticks),
        (2, Family::Board),
        (2, Family::Soup),
    ];
}

/// A generated script and its sort.
#[derive(Clone, Debug)]
#[allow(missing_docs)]
pub struct Generated {
    pub family: Family,
    pub source: Vec<u8>,
}

/// The script with this index among those of this seed.
pub fn script(seed: u64, index: u64) -> Generated {
    let mut random = Random::new(seed, index);
    let family = random.weighted(Family::WEIGHTED);
    Generated { family, source: of_family(family, &mut random) }
}

/// A script of a family.
pub fn of_family(family: Family, random: &mut Random) -> Vec<u8> {
    match family {
        Family::Sound => layout::lay_out(&program::sound(random), random),
        Family::Arithmetic => arithmetic::arithmetic(random),
        Family::Order => order::order(random),
        Family::Faulty => layout::lay_out(&program::faulty(random), random),
        Family::Grammar => grammar::grammar(random),
        Family::TokenDamage => damage::tokens(random),
        Family::ByteDamage => damage::bytes(random),
        Family::Bytes => limits::bytes(random),
        Family::Tokens => limits::tokens(random),
        Family::Depth => limits::depth(random),
        Family::Cells => limits::cells(random),
        Family::Numbers => edges::numbers(random),
        Family::Characters => edges::characters(random),
        Family::Ticks => edges::ticks(random),
        Family::Board => edges::board(random),
        Family::Soup => soup::soup(random),
    }
}
