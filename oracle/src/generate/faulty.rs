//! Statements and declarations that are likely to be refused.
//!
//! Nothing here has to be faulty for certain: what a script of these deserves
//! is for the interpreters to say.

use super::words::NAMES;
use super::writer::Writer;
use crate::parser::MOST_DEPTH;
use crate::types::{Function, Type};

/// All operators between two operands.
const BINARY: &[&str] = &["+", "-", "*", "/", "%", "<", "<=", ">", ">=", "==", "!=", "&&", "||"];

/// All that may stand between a name and what it is assigned.
const ASSIGNING: &[&str] = &["=", "+=", "-=", "*=", "/=", "%=", "&&=", "||="];

/// Declarations with two faults, of which one comes first.
const TWICE_FAULTY_DECLARATIONS: &[&str] = &[
    "int twice = 1 ; bool twice = 1 ;",
    "int twice = 1 ; int twice = 1 ;",
    "int twice = true ; extern int pixel ( ) ;",
    "extern int pixel ( ) ; int twice = true ;",
    "extern int zone ( int i ) ; extern bool zone ( int i ) ;",
    "extern int zone ( int i ) ; extern int zone ( int i ) ;",
    "extern int rows ( ) ; int rows = true ;",
    "int columns = 1 ; extern int columns ( ) ;",
    "int columns = 1 ; extern void columns ( ) ;",
];

/// Statements with two faults, of which one comes first.
const TWICE_FAULTY_STATEMENTS: &[&str] = &[
    "{ int d = 1 ; bool d = 1 ; }",
    "{ int d = 1 ; int d = nowhere ; }",
    "{ int d = 1 ; int d = d + true ; }",
    "if ( 1 ) nowhere ;",
    "if ( nowhere ) 1 + true ;",
    "if ( 1 ) break ; else nowhere ;",
    "while ( 1 ) nowhere ;",
    "while ( nowhere ) { 1 + true ; }",
    "do nowhere ; while ( 1 ) ;",
    "do 1 + true ; while ( nowhere ) ;",
    "for ( int i = true to nowhere ) { }",
    "for ( int i = true to 1 + true ) { }",
    "for ( int i = true to 1 ) nowhere ;",
    "for ( int i = 0 to 'a' ) { nowhere ; }",
    "for ( int i = 0 to main ) { nowhere ; }",
    "1 + true + nowhere ;",
    "nowhere + ( 1 + true ) ;",
    "( 1 + true ) + nowhere ;",
    "true + ( 1 + 'a' ) ;",
    "- ( true + 1 ) ;",
    "! ( 1 < nowhere ) ;",
    "1 + true == nowhere ;",
    "return nowhere + true ;",
    "return - true + nowhere ;",
    "if ( true < false ) nowhere ;",
    "if ( false >= nowhere ) 1 ;",
    "main = 1 + true ;",
    "nowhere += 1 + true ;",
    "{ bool d = true ; d += nowhere ; }",
    "{ bool d = true ; d += 1 + true ; }",
    "{ int d = 1 ; d ( nowhere ) ; }",
];

impl Writer<'_> {
    /// A declaration whose name, types or constant may be wrong.
    pub fn faulty_declaration(&mut self) {
        match self.random.below(8) {
            0..=3 => self.wild_external(),
            4 | 5 => self.wild_global(),
            _ => {
                let declarations = self.random.pick(TWICE_FAULTY_DECLARATIONS);
                self.say(declarations);
            }
        }
    }

    fn wild_external(&mut self) {
        let function = self.random.pick(&Function::ALL);
        let right_name = self.random.percent(80);
        let name = if right_name { function.name() } else { self.random.pick(NAMES) };
        let answer = function.answer().map_or("void", |kind| kind.keyword().text());
        let answer = self.mostly(answer, &["void", "bool", "char", "int"]);
        let parameter = function.parameter().map_or("", |_| "int i");
        let parameter = self.mostly(parameter, &["", "int i", "bool b", "char c"]);
        self.say(&format!("extern {answer} {name} ( {parameter} ) ;"));
    }

    fn wild_global(&mut self) {
        let (kind, other) = (self.any_type(), self.any_type());
        let name = self.random.pick(NAMES);
        self.word(kind.keyword().text());
        self.word(name);
        self.word("=");
        self.constant(other);
        self.word(";");
    }

    /// The usual choice in three cases of four.
    fn mostly<'t>(&mut self, usual: &'t str, others: &[&'t str]) -> &'t str {
        if self.random.percent(75) {
            usual
        } else {
            self.random.pick(others)
        }
    }

    /// A statement whose names, types or place may be wrong.
    pub fn faulty_statement(&mut self, depth: usize) {
        match self.random.below(19) {
            0 => self.wild_definition(depth),
            1 => self.wild_assignment(depth),
            2 => self.wild_condition(depth),
            3 => self.wild_for(depth),
            4 => self.wild_return(depth),
            5 | 6 => {
                let word = self.random.pick(&["break ;", "continue ;"]);
                self.say(word);
            }
            7 => self.other_type(depth),
            8..=10 => self.wrong_call(),
            11 => self.second_definition(depth),
            12 => self.out_of_its_level(depth),
            13..=15 if depth + 2 < MOST_DEPTH => {
                let statement = self.random.pick(TWICE_FAULTY_STATEMENTS);
                self.say(statement);
            }
            16 => self.wrong_count(),
            _ => self.wild_value(depth),
        }
    }

    fn wild_definition(&mut self, depth: usize) {
        let kind = self.any_type();
        let name = self.random.pick(NAMES);
        self.word(kind.keyword().text());
        self.word(name);
        self.word("=");
        self.wild(depth, 4);
        self.word(";");
    }

    fn wild_assignment(&mut self, depth: usize) {
        let name = self.random.pick(NAMES);
        let mark = self.random.pick(ASSIGNING);
        self.word(name);
        self.word(mark);
        self.wild(depth, 3);
        self.word(";");
    }

    fn wild_condition(&mut self, depth: usize) {
        let is_do = self.random.percent(35);
        if is_do {
            self.word("do");
            self.body_or_value(depth);
        }
        let word = if is_do { "while" } else { self.random.pick(&["if", "while"]) };
        self.word(word);
        self.word("(");
        self.wild(depth, 3);
        self.word(")");
        if is_do {
            self.word(";");
        } else {
            self.body_or_value(depth);
        }
    }

    fn wild_for(&mut self, depth: usize) {
        let name = self.random.pick(NAMES);
        self.say("for ( int");
        self.word(name);
        self.word("=");
        self.wild(depth, 2);
        self.word("to");
        self.wild(depth, 2);
        self.word(")");
        self.body_or_value(depth);
    }

    fn wild_return(&mut self, depth: usize) {
        self.word("return");
        if self.random.percent(80) {
            self.wild(depth, 3);
        }
        self.word(";");
    }

    fn body_or_value(&mut self, depth: usize) {
        if depth + 1 < self.plan.most_depth && self.has_room() {
            self.body(depth);
        } else {
            self.say("1 ;");
        }
    }

    fn wild_value(&mut self, depth: usize) {
        self.wild(depth, 5);
        self.word(";");
    }

    /// Sound parts of a type that does not fit the whole.
    fn other_type(&mut self, depth: usize) {
        let (left, right) = (self.any_type(), self.any_type());
        match self.random.below(4) {
            0 => {
                let name = self.fresh_name();
                self.word(left.keyword().text());
                self.word(name);
                self.word("=");
            }
            1 => {
                let name = self.some_variable(|kind, _| kind == left);
                let mark = self.random.pick(ASSIGNING);
                self.word(name.unwrap_or_else(|| "nowhere".to_owned()));
                self.word(mark);
            }
            2 => self.word("return"),
            _ => {
                self.short(left, depth);
                let mark = self.random.pick(BINARY);
                self.word(mark);
            }
        }
        self.short(right, depth);
        self.word(";");
    }

    /// Calls with too much, too little, or at the wrong spot.
    fn wrong_call(&mut self) {
        const CALLS: &[&str] = &[
            "report ( 1 ) ;",
            "( report ( 1 ) ) ;",
            "report ( report ( 1 ) ) ;",
            "return report ( 1 ) ;",
            "report ( 1 ) + 1 ;",
            "- report ( 1 ) ;",
            "report ( ) ;",
            "report ( true ) ;",
            "report ( 1 , 2 ) ;",
            "report ( 1 , nowhere ) ;",
            "report ( true , 1 + true ) ;",
            "report ( nowhere ) ;",
            "zone ( ) ;",
            "zone ( 1 , 2 ) ;",
            "zone ( 'a' ) ;",
            "zone ( true , nowhere ) ;",
            "zone ( report ( 1 ) ) ;",
            "zone ;",
            "zone = nowhere ;",
            "zone += 1 ;",
            "columns ( 1 ) ;",
            "rows ( ) ;",
            "rows = true ;",
            "main ( ) ;",
            "main ( nowhere ) ;",
            "main ;",
            "main = nowhere ;",
            "nowhere ( neither ) ;",
            "nowhere = neither ;",
            "x ( 1 ) ;",
            "x ( nowhere ) ;",
            "return columns ( ) + zone ;",
        ];
        let call = self.random.pick(CALLS);
        self.say(call);
    }

    /// A function of the board with too many arguments or too few.
    fn wrong_count(&mut self) {
        let function = self.random.pick(&Function::ALL);
        let count = match function.parameter() {
            Some(_) => self.random.pick(&["", "1 , 2", "1 , true", "1 , 2 , 3"]),
            None => self.random.pick(&["1", "true", "1 , 2"]),
        };
        self.say(&format!("{} ( {count} ) ;", function.name()));
    }

    /// A name again that its level may have.
    fn second_definition(&mut self, depth: usize) {
        let kind = self.any_type();
        let name = self.some_variable(|_, _| true).unwrap_or_else(|| "a".to_owned());
        self.word(kind.keyword().text());
        self.word(name);
        self.word("=");
        self.short(kind, depth);
        self.word(";");
    }

    /// A name after the level that defined it.
    fn out_of_its_level(&mut self, depth: usize) {
        if depth + 1 >= MOST_DEPTH {
            return self.say("gone ;");
        }
        const PIECES: &[&str] = &[
            "{ int gone = 1 ; } gone = 2 ;",
            "if ( true ) int gone = 1 ; else gone = 2 ;",
            "do int gone = 1 ; while ( gone == 1 ) ;",
            "for ( int gone = 0 to gone ) { }",
            "for ( int gone = 0 to 2 ) int gone = 1 ;",
            "for ( int gone = 0 to 1 ) { } gone = 1 ;",
            "while ( false ) int gone = 1 ; gone += 1 ;",
            "int gone = gone ;",
            "{ gone = 1 ; int gone = 2 ; }",
        ];
        let piece = self.random.pick(PIECES);
        self.say(piece);
    }

    /// An expression without regard to names and types.
    fn wild(&mut self, depth: usize, size: usize) {
        self.wild_operand(depth, size);
        for _ in 1..self.random.between(1, size.max(1)) {
            let mark = self.random.pick(BINARY);
            self.word(mark);
            self.wild_operand(depth, size / 2);
        }
    }

    fn wild_operand(&mut self, depth: usize, size: usize) {
        let deeper = depth < MOST_DEPTH;
        match self.random.below(12) {
            0 if deeper => {
                self.word("(");
                self.wild(depth + 1, size / 2);
                self.word(")");
            }
            1 | 2 if deeper => {
                let mark = self.random.pick(&["-", "!"]);
                self.word(mark);
                self.wild_operand(depth + 1, size / 2);
            }
            3 if deeper => self.wild_call(depth, size),
            4 => {
                let name = self.random.pick(NAMES);
                self.word(name);
            }
            5 | 6 => {
                let name = self.some_variable(|_, _| true);
                self.word(name.unwrap_or_else(|| "1".to_owned()));
            }
            _ => {
                let kind = self.random.pick(&Type::ALL);
                self.constant(kind);
            }
        }
    }

    fn wild_call(&mut self, depth: usize, size: usize) {
        let name = self.random.pick(&["zone", "zone", "columns", "rows", "report", "main", "x"]);
        self.word(name);
        self.word("(");
        for argument in 0..self.random.below(3) {
            if argument > 0 {
                self.word(",");
            }
            self.wild(depth + 1, size / 2);
        }
        self.word(")");
    }
}
