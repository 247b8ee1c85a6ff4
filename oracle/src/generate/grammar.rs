//! Short scripts that show each production, with at most one token changed.

use super::{layout, words};
use crate::random::Random;

/// Declarations, each to stand before main.
const DECLARATIONS: &[&str] = &[
    "",
    "",
    "extern int zone ( int i ) ;",
    "extern int columns ( ) ;",
    "extern void report ( int v ) ;",
    "static bool g = true ;",
    "char g = 'a' ;",
    "int main = 1 ;",
];

/// Beginnings of main.
const MAINS: &[&str] = &["int main ( ) {", "int main ( ) {", "static int main ( ) {"];

/// Beginnings that main does not have.
const WRONG_MAINS: &[&str] = &[
    "bool main ( ) {",
    "char main ( ) {",
    "void main ( ) {",
    "main ( ) {",
    "int Main ( ) {",
    "int main ( void ) {",
    "int main ( int a ) {",
    "extern int main ( ) {",
    "static extern int rows ( ) ; int main ( ) {",
    "static static int main ( ) {",
    "extern int zone ( int ) ; int main ( ) {",
    "extern int zone ( int i , int j ) ; int main ( ) {",
    "extern int zone ; int main ( ) {",
    "extern zone ( int i ) ; int main ( ) {",
    "extern int rows ( void ) ; int main ( ) {",
    "extern float rows ( ) ; int main ( ) {",
    "int g = - 1 ; int main ( ) {",
    "int g = 1 + 1 ; int main ( ) {",
    "int g ; int main ( ) {",
    "int g = h ; int main ( ) {",
    "int g = 1 , h = 2 ; int main ( ) {",
    "float g = 1 ; int main ( ) {",
    "void g = 1 ; int main ( ) {",
    "int main ( ) { } int main ( ) {",
    "int main ( ) { } int g = 1 ; {",
];

/// Statements.
const STATEMENTS: &[&str] = &[
    "",
    "{ }",
    "{ 1 ; { 2 ; } }",
    "int x = 1 ;",
    "x = 1 ;",
    "x += - 1 ;",
    "b &&= true ;",
    "1 + 2 * ( 3 - x ) ;",
    "zone ( ) ;",
    "zone ( 1 ) ;",
    "zone ( 1 , x , 'a' , true ) ;",
    "report ( zone ( 1 ) + 1 ) ;",
    "if ( true ) 1 ;",
    "if ( true ) 1 ; else 2 ;",
    "if ( x ) if ( y ) 1 ; else 2 ; else { }",
    "while ( true ) { }",
    "while ( ! b && c || d ) break ;",
    "do 1 ; while ( false ) ;",
    "do { continue ; } while ( x < 1 ) ;",
    "for ( int i = 0 to 3 ) continue ;",
    "for ( int i = x + 1 to ( 3 ) ) { i = 1 ; }",
    "break ;",
    "continue ;",
    "return ;",
    "return 1 == 2 ;",
    "return - ( 1 ) ;",
];

/// Statements that nearly are some.
const WRONG_STATEMENTS: &[&str] = &[
    ";",
    "{ ; }",
    "1 ; ;",
    "else 1 ;",
    "if ( true ) else 1 ;",
    "if ( true ) 1 else 1 ;",
    "if ( ) 1 ;",
    "if true 1 ;",
    "if ( true ) ;",
    "if ( true ) { } else ;",
    "if ( true ) 1 ; else 1 ; else 1 ;",
    "while ( true ) ;",
    "while { }",
    "do 1 ; while ( false )",
    "do 1 while ( false ) ;",
    "do { } ;",
    "do while ( false ) ;",
    "do 1 ; 2 ; while ( false ) ;",
    "for ( i = 0 to 3 ) 1 ;",
    "for ( char i = 0 to 3 ) 1 ;",
    "for ( int i = 0 ; 3 ) 1 ;",
    "for ( int i = 0 to 3 ; ) 1 ;",
    "for ( int i to 3 ) 1 ;",
    "for ( int i = 0 to ) 1 ;",
    "for ( int i = 0 to 3 ) ;",
    "break",
    "break 1 ;",
    "continue continue ;",
    "return 1",
    "return return 1 ;",
    "return 1 2 ;",
    "return int ;",
    "int x ;",
    "int x = ;",
    "int = 1 ;",
    "int x = 1 , y = 2 ;",
    "int x += 1 ;",
    "int 1 = x ;",
    "float x = 1 ;",
    "void x = 1 ;",
    "static int x = 1 ;",
    "extern int rows ( ) ;",
    "int f ( ) { }",
    "x = ;",
    "x + = 1 ;",
    "x = y = 1 ;",
    "x + 1 = 2 ;",
    "( x ) = 1 ;",
    "1 = 2 ;",
    "zone ( 1 ) = 2 ;",
    "true = false ;",
    "x ( ) ( ) ;",
    "1 ( ) ;",
    "( x ) ( 1 ) ;",
    "zone ( 1 , ) ;",
    "zone ( , 1 ) ;",
    "zone ( , ) ;",
    "zone ( 1 2 ) ;",
    "zone ( 1 ;",
    "zone 1 ) ;",
    "( ) ;",
    "( 1 ;",
    "1 ) ;",
    "1 + ;",
    "+ 1 ;",
    "* 1 ;",
    "1 ! 2 ;",
    "1 - ! ;",
    "1 == ;",
    "1 , 2 ;",
    "to ;",
    "x to y ;",
    "true false ;",
    "'a' 'b' ;",
    "{ ",
    "}",
    "} {",
];

/// A short script, mostly with one token too many, too few or another.
pub fn grammar(random: &mut Random) -> Vec<u8> {
    let near_miss = random.percent(45);
    let wrong_main = near_miss && random.percent(30);
    let first = if near_miss && !wrong_main { WRONG_STATEMENTS } else { STATEMENTS };
    let pieces = [
        random.pick(DECLARATIONS),
        random.pick(if wrong_main { WRONG_MAINS } else { MAINS }),
        random.pick(first),
        random.pick(STATEMENTS),
        "}",
    ];
    let split = |piece: &'static str| piece.split_whitespace().map(str::to_owned);
    let mut all: Vec<String> = pieces.into_iter().flat_map(split).collect();
    if !near_miss {
        change(random, &mut all);
    }
    layout::lay_out(&all, random)
}

fn change(random: &mut Random, all: &mut Vec<String>) {
    let at = random.below(all.len());
    match random.below(8) {
        0 | 1 => drop(all.remove(at)),
        2 => all.truncate(at),
        3 => all.insert(at, words::any(random)),
        4 => all.insert(at, all[at].clone()),
        5 => all[at] = words::any(random),
        6 => all[at] = words::alike(random, &all[at]),
        _ => {}
    }
}
