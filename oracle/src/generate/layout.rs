//! Tokens to bytes: what stands between tokens.

use crate::random::Random;

/// How loosely a script is written.
#[derive(Clone, Copy)]
enum Style {
    Tight,
    Plain,
    Ragged,
}

/// Writes tokens one after the other, apart where they would grow together.
pub fn lay_out(words: &[String], random: &mut Random) -> Vec<u8> {
    let style = random.weighted(&[(4, Style::Tight), (3, Style::Plain), (2, Style::Ragged)]);
    let mut source = Vec::new();
    for word in words {
        let needed = grow_together(&source, word.as_bytes());
        let gap = gap(random, style, needed);
        if grow_together(&source, &gap) {
            source.push(b' ');
        }
        source.extend_from_slice(&gap);
        source.extend_from_slice(word.as_bytes());
    }
    if random.percent(10) {
        source.extend_from_slice(&gap(random, Style::Ragged, false));
    }
    source
}

/// Whether a token right behind these bytes would be read together with them.
fn grow_together(before: &[u8], word: &[u8]) -> bool {
    let (Some(&last), Some(&first)) = (before.last(), word.first()) else {
        return false;
    };
    let of_word = |byte: u8| byte.is_ascii_alphanumeric() || byte == b'_';
    match first {
        b'=' => b"+-*/%=!<>&|".contains(&last),
        b'/' | b'*' => last == b'/',
        _ => of_word(first) && of_word(last),
    }
}

fn gap(random: &mut Random, style: Style, needed: bool) -> Vec<u8> {
    let wanted = match style {
        Style::Tight => random.percent(1),
        Style::Plain => random.percent(50),
        Style::Ragged => true,
    };
    if !needed && !wanted {
        return Vec::new();
    }
    match style {
        Style::Tight | Style::Plain => vec![random.pick(b"    \n")],
        Style::Ragged => ragged_gap(random),
    }
}

fn ragged_gap(random: &mut Random) -> Vec<u8> {
    const GAPS: &[&[u8]] = &[
        b" ",
        b"  ",
        b"\n",
        b"\t",
        b"\r\n",
        b"\r",
        b"/**/",
        b"/* a */",
        b"/* /* */",
        b"/***/",
        b"/* // */",
        b"/*'*/",
        b"/*\xff\x00@*/",
        b"// b\n",
        b"//\n",
        b"// */ /* '\n",
        b"//\xfe\r\"\n",
        b" //c\r\n",
    ];
    let mut gap = random.pick(GAPS).to_vec();
    if random.percent(20) {
        gap.extend_from_slice(random.pick(GAPS));
    }
    gap
}
