//! Bytes to tokens.

use crate::refusal::{Fault, Place, Refusal};
use crate::token::{Keyword, Kind, Mark, Token};

/// The most bytes of a source.
pub const MOST_BYTES: usize = 16_384;
/// The most tokens of a source.
pub const MOST_TOKENS: usize = 1_024;

/// The tokens of a source, or the first fault of its length and its reading.
pub fn read(source: &[u8]) -> Result<Vec<Token>, Refusal> {
    if source.len() > MOST_BYTES {
        return Err(Fault::SourceTooLong.at(0));
    }
    let mut reader = Reader { source, place: 0 };
    let mut tokens = Vec::new();
    while let Some(token) = reader.next_token()? {
        if tokens.len() == MOST_TOKENS {
            return Err(Fault::TooManyTokens.at(token.place));
        }
        tokens.push(token);
    }
    Ok(tokens)
}

/// The source, and how far it has been read.
struct Reader<'a> {
    source: &'a [u8],
    place: Place,
}

impl Reader<'_> {
    fn rest(&self) -> &[u8] {
        &self.source[self.place..]
    }

    /// The next token, or nothing at the end of the source.
    fn next_token(&mut self) -> Result<Option<Token>, Refusal> {
        self.skip_gap()?;
        let place = self.place;
        let Some(&first) = self.rest().first() else {
            return Ok(None);
        };
        let (kind, length) = match first {
            b'0'..=b'9' => number(self.rest()),
            b'\'' => character(self.rest()),
            letter if letter.is_ascii_alphabetic() => Ok(word(self.rest())),
            _ => mark(self.rest()),
        }
        .map_err(|fault| fault.at(place))?;
        self.place += length;
        Ok(Some(Token { kind, place, length }))
    }

    /// Goes over blanks and comments.
    fn skip_gap(&mut self) -> Result<(), Refusal> {
        loop {
            self.place += match self.rest() {
                [b' ' | b'\t' | b'\n' | b'\r', ..] => 1,
                [b'/', b'/', comment @ ..] => 2 + line_comment(comment),
                [b'/', b'*', comment @ ..] => {
                    2 + long_comment(comment).ok_or(Fault::OpenComment.at(self.place))?
                }
                _ => return Ok(()),
            };
        }
    }
}

/// How much of the bytes after `//` is the comment's; the line feed is not.
fn line_comment(after: &[u8]) -> usize {
    after.iter().position(|&byte| byte == b'\n').unwrap_or(after.len())
}

/// How much of the bytes after `/*` is the comment's, if it is closed.
fn long_comment(after: &[u8]) -> Option<usize> {
    after.windows(2).position(|pair| pair == b"*/").map(|at| at + 2)
}

/// A kind with the length of its text.
type Lexeme = (Kind, usize);

/// The name or keyword at the front; a letter stands there.
fn word(rest: &[u8]) -> Lexeme {
    let length = run_of(rest, |byte| byte.is_ascii_alphanumeric() || byte == b'_');
    let text = &rest[..length];
    let keyword = Keyword::ALL.iter().find(|keyword| keyword.text().as_bytes() == text);
    (keyword.map_or(Kind::Name, |&keyword| Kind::Keyword(keyword)), length)
}

/// The number at the front; a digit stands there.
fn number(rest: &[u8]) -> Result<Lexeme, Fault> {
    let (radix, prefix) = match rest {
        [b'0', b'x', digit, ..] if digit.is_ascii_hexdigit() => (16, 2),
        _ => (10, 0),
    };
    let digits = run_of(&rest[prefix..], |byte| char::from(byte).is_digit(radix));
    let value = value_of(&rest[prefix..prefix + digits], radix).ok_or(Fault::NumberTooLarge)?;
    Ok((Kind::Number(value), prefix + digits))
}

/// The value of digits, if it is an int.
fn value_of(digits: &[u8], radix: u32) -> Option<i32> {
    digits.iter().try_fold(0i32, |value, &digit| {
        let digit = char::from(digit).to_digit(radix)?;
        value.checked_mul(i32::try_from(radix).ok()?)?.checked_add(i32::try_from(digit).ok()?)
    })
}

/// The character constant at the front; a quote stands there.
fn character(rest: &[u8]) -> Result<Lexeme, Fault> {
    let (value, length) = match rest {
        [_, b'\\', letter, b'\'', ..] => (escaped(*letter).ok_or(Fault::BadCharacter)?, 4),
        [_, plain @ 32..=126, b'\'', ..] if !matches!(plain, b'\'' | b'\\') => (*plain, 3),
        _ => return Err(Fault::BadCharacter),
    };
    let value = i8::try_from(value).map_err(|_| Fault::BadCharacter)?;
    Ok((Kind::Character(value), length))
}

/// The value of the escape with this letter.
fn escaped(letter: u8) -> Option<u8> {
    Some(match letter {
        b'n' => 10,
        b't' => 9,
        b'r' => 13,
        b'a' => 7,
        b'b' => 8,
        b'f' => 12,
        b'v' => 11,
        b'0' => 0,
        b'\\' | b'\'' | b'"' | b'?' => letter,
        _ => return None,
    })
}

/// The longest mark at the front.
fn mark(rest: &[u8]) -> Result<Lexeme, Fault> {
    Mark::ALL
        .iter()
        .filter(|mark| rest.starts_with(mark.text().as_bytes()))
        .max_by_key(|mark| mark.text().len())
        .map(|&mark| (Kind::Mark(mark), mark.text().len()))
        .ok_or(Fault::StrayByte)
}

/// How many bytes at the front are of a sort.
fn run_of(bytes: &[u8], sort: impl Fn(u8) -> bool) -> usize {
    bytes.iter().position(|&byte| !sort(byte)).unwrap_or(bytes.len())
}
