//! Sound scripts with a few tokens or bytes changed.

use super::{layout, program, words};
use crate::random::Random;

/// A sound script with one to three changes of tokens.
pub fn tokens(random: &mut Random) -> Vec<u8> {
    let mut all = program::sound(random);
    for _ in 0..random.pick(&[1, 1, 1, 2, 3]) {
        damage_token(random, &mut all);
    }
    layout::lay_out(&all, random)
}

fn damage_token(random: &mut Random, all: &mut Vec<String>) {
    if all.is_empty() {
        all.push(words::any(random));
        return;
    }
    let at = random.below(all.len());
    let other = random.below(all.len());
    match random.below(7) {
        0 => drop(all.remove(at)),
        1 => all.insert(at, all[at].clone()),
        2 => all.swap(at, other),
        3 | 4 => all[at] = words::any(random),
        5 => all.insert(at, words::any(random)),
        _ => all.truncate(at),
    }
}

/// A sound script with one to three changes of bytes.
pub fn bytes(random: &mut Random) -> Vec<u8> {
    let all = program::sound(random);
    let mut source = layout::lay_out(&all, random);
    for _ in 0..random.pick(&[1, 1, 1, 2, 3]) {
        damage_byte(random, &mut source);
    }
    source
}

fn damage_byte(random: &mut Random, source: &mut Vec<u8>) {
    let byte = telling_byte(random);
    if source.is_empty() {
        source.push(byte);
        return;
    }
    let at = random.below(source.len());
    match random.below(8) {
        0 => drop(source.remove(at)),
        1 => source.insert(at, source[at]),
        2 | 3 => source[at] = byte,
        4 => source.insert(at, byte),
        5 => source[at] ^= 1 << random.below(8),
        6 => {
            insert_all(source, at, random.pick(&[b"/*" as &[u8], b"*/", b"//", b"'", b"99999999"]))
        }
        _ => source.truncate(at),
    }
}

fn insert_all(source: &mut Vec<u8>, at: usize, piece: &[u8]) {
    source.splice(at..at, piece.iter().copied());
}

/// Mostly bytes that mean something.
fn telling_byte(random: &mut Random) -> u8 {
    if random.percent(30) {
        return random.byte();
    }
    random.pick(b"/*'\"\\&|=<>!+-%(){},;_ \n\r\t09axfXz.#[]@")
}
