//! Tokens: keywords, marks, names and constants.

use crate::refusal::Place;

/// An enum of words, with the list of all of them and the text of each.
macro_rules! words {
    ($(#[$about:meta])* $kind:ident { $($case:ident = $text:literal,)* }) => {
        $(#[$about])*
        #[derive(Clone, Copy, Debug, PartialEq, Eq)]
        #[allow(missing_docs)]
        pub enum $kind { $($case,)* }

        impl $kind {
            /// All of them.
            pub const ALL: &'static [$kind] = &[$($kind::$case,)*];

            /// How it is written.
            pub fn text(self) -> &'static str {
                match self { $($kind::$case => $text,)* }
            }
        }
    };
}

words! {
    /// The words that are no names.
    Keyword {
        Bool = "bool", Char = "char", Int = "int", Float = "float", Void = "void",
        Extern = "extern", Static = "static",
        If = "if", Else = "else", While = "while", Do = "do", For = "for", To = "to",
        Break = "break", Continue = "continue", Return = "return",
        True = "true", False = "false",
    }
}

words! {
    /// Operators and punctuation.
    Mark {
        Plus = "+", Minus = "-", Star = "*", Slash = "/", Percent = "%",
        Assign = "=", Equal = "==", Unequal = "!=", Not = "!",
        Less = "<", LessEqual = "<=", Greater = ">", GreaterEqual = ">=",
        And = "&&", Or = "||",
        PlusAssign = "+=", MinusAssign = "-=", StarAssign = "*=", SlashAssign = "/=",
        PercentAssign = "%=", AndAssign = "&&=", OrAssign = "||=",
        Open = "(", Close = ")", OpenBrace = "{", CloseBrace = "}",
        Comma = ",", Semicolon = ";",
    }
}

/// What a token is, with its value where it has one.
#[derive(Clone, Copy, Debug, PartialEq, Eq)]
pub enum Kind {
    /// A name; its bytes are in the source.
    Name,
    /// A number.
    Number(i32),
    /// A character constant.
    Character(i8),
    /// A keyword.
    Keyword(Keyword),
    /// A mark.
    Mark(Mark),
}

impl Kind {
    /// The word for this kind in a listing.
    pub fn word(self) -> &'static str {
        match self {
            Kind::Name => "name",
            Kind::Number(_) => "number",
            Kind::Character(_) => "character",
            Kind::Keyword(keyword) => keyword.text(),
            Kind::Mark(mark) => mark.text(),
        }
    }

    /// The value in a listing, 0 where there is none.
    pub fn value(self) -> i32 {
        match self {
            Kind::Number(value) => value,
            Kind::Character(value) => i32::from(value),
            Kind::Name | Kind::Keyword(_) | Kind::Mark(_) => 0,
        }
    }
}

/// A token and where it stands.
#[derive(Clone, Copy, Debug, PartialEq, Eq)]
pub struct Token {
    /// What it is.
    pub kind: Kind,
    /// Its first byte.
    pub place: Place,
    /// How many bytes it has.
    pub length: usize,
}
