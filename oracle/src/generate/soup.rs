//! Tokens and bytes without any plan.

use super::{layout, words};
use crate::random::Random;

/// A script of random tokens inside main, random tokens alone, or random bytes.
pub fn soup(random: &mut Random) -> Vec<u8> {
    let length = random.between(0, 40);
    if random.percent(30) {
        return (0..length).map(|_| random.byte()).collect();
    }
    let mut all: Vec<String> = Vec::new();
    if random.percent(60) {
        all.extend(["int", "main", "(", ")", "{"].map(str::to_owned));
    }
    all.extend((0..length).map(|_| words::any(random)));
    layout::lay_out(&all, random)
}
