//! Scripts at every limit of size and beside it.

use crate::checker::MOST_CELLS;
use crate::lexer::{self, MOST_BYTES, MOST_TOKENS};
use crate::parser::MOST_DEPTH;
use crate::random::Random;

/// A number at a limit or a little beside it, mostly the limit and its neighbour.
fn near(random: &mut Random, limit: usize) -> usize {
    random.weighted(&[(4, limit), (4, limit + 1), (1, limit - 1), (1, limit + 2)])
}

/// Scripts with one byte to repeat in the middle.
#[rustfmt::skip]
const PADDED: &[(&str, u8, &str)] = &[
    ("int main(){return 1;}", b' ', ""),
    ("", b'\n', "int main(){return 2;}"),
    ("int main(){/*", b'*', "*/return 3;}"),
    ("int main(){//", b'@', "\nreturn 4;}"),
    ("int main(){return 5;}//", b'\'', ""),
    ("int a", b'b', "=1;int main(){}"),
    ("int main(){return 00", b'0', "7;}"),
    ("int main(){return 0x", b'0', "7fffffff;}"),
    ("int main(){}/*", b'/', ""),
    ("int main(){", b' ', "x;}"),
    ("int main(){", b'\t', "return 1/0;}"),
    ("int main(){/*", b'\\', "*/return 1+true;}"),
    ("int main(){", b'\r', "while(true){}}@"),
];

/// A source of about the greatest length.
pub fn bytes(random: &mut Random) -> Vec<u8> {
    let length = near(random, MOST_BYTES);
    let (before, fill, after) = random.pick(PADDED);
    let mut source = before.as_bytes().to_vec();
    source.resize(length - after.len(), fill);
    source.extend_from_slice(after.as_bytes());
    source
}

/// A source of about the most tokens, with something behind them.
pub fn tokens(random: &mut Random) -> Vec<u8> {
    let count = near(random, MOST_TOKENS);
    let mut source = match random.below(7) {
        0 => padded_by_values(count),
        1 => padded_by_chain(count),
        2 => padded_by_marks(count, random),
        _ => padded_by_pieces(count, random),
    };
    const BEHIND: &[&str] = &[
        "",
        "",
        "",
        " ",
        "\n",
        "// x",
        "/* y */",
        "/* z",
        "@",
        "_",
        "&",
        "''",
        "'\\x'",
        "9999999999",
        "0x80000000",
        "x",
        "}",
        " ; ",
        "'a'",
        "\u{b}",
    ];
    source.push_str(random.pick(BEHIND));
    source.into_bytes()
}

/// `1;` over and over in main; an odd rest becomes `-1;`.
fn padded_by_values(count: usize) -> String {
    let filling = count - 6;
    let mut source = String::from("int main(){");
    if filling % 2 == 1 {
        source.push_str("-1;");
        source.push_str(&"1;".repeat((filling - 3) / 2));
    } else {
        source.push_str(&"1;".repeat(filling / 2));
    }
    source.push('}');
    source
}

/// One chain of operators as long as the script can hold.
fn padded_by_chain(count: usize) -> String {
    let filling = count - 6 - 3;
    let sign = if filling.is_multiple_of(2) { "" } else { "-" };
    let links = "+1".repeat(filling / 2);
    format!("int main(){{return {sign}1{links};}}")
}

/// Tokens that are no script.
fn padded_by_marks(count: usize, random: &mut Random) -> String {
    random.pick(&["(", "+ ", ";", "a ", "1 ", "&&", "'a'"]).repeat(count)
}

/// Statements that need much code for few tokens.
const STATEMENTS: &[&str] = &[
    "1;",
    "-'a';",
    "c=-c;",
    "c*=-c;",
    "x=-x;",
    "b=!b;",
    "b=b&&b||!b;",
    "b&&=b;",
    "b||=c<'a';",
    "c+='a'*'b';",
    "{bool y=x<=1==b;}",
    "{int y=x;}",
    "if(b)x+=1;else x-=1;",
    "while(!b)break;",
    "do{}while(false);",
    "for(int i=0 to 0)x+=i;",
    "for(int i=x to x){c-=c;}",
];

/// Ways out of a loop, more than a script would need.
const LEAVING: &[&str] =
    &["break;", "continue;", "if(b)break;", "if(!b)continue;", "{x+=1;continue;}", "if(x>9)break;"];

/// Links of one long condition.
const JOINED: &[&str] = &["b&&", "b||", "!b&&", "x<1||", "c=='a'&&", "x!=x||"];

/// No piece has more tokens.
const LONGEST_PIECE: usize = 20;

/// Two texts, and what may stand between them over and over.
type Frame = (&'static str, &'static str, &'static [&'static str]);

const FRAMES: &[Frame] = &[
    ("", "", STATEMENTS),
    ("", "", STATEMENTS),
    ("while(true){", "}", LEAVING),
    ("bool b=", "true;", JOINED),
];

/// A frame full of pieces, then `1;` for the rest of the tokens.
fn padded_by_pieces(count: usize, random: &mut Random) -> String {
    let tokens_in = |text: &str| lexer::read(text.as_bytes()).map_or(0, |tokens| tokens.len());
    let (before, after, pieces) = random.pick(FRAMES);
    let mut source = format!("int x=1;char c='a';bool b=true;int main(){{{before}");
    let mut left = count - tokens_in(&source) - tokens_in(after) - 1;
    while left > LONGEST_PIECE {
        let piece = random.pick(pieces);
        left -= tokens_in(piece);
        source.push_str(piece);
    }
    let filling = "1;".repeat(left / 2);
    let filling = if left % 2 == 1 { filling.replacen("1;", "-1;", 1) } else { filling };
    format!("{source}{after}{filling}}}")
}

/// What brings one or two levels of depth.
#[derive(Clone, Copy)]
struct Nest {
    open: &'static str,
    close: &'static str,
    adds: usize,
}

const fn nest(open: &'static str, close: &'static str, adds: usize) -> Nest {
    Nest { open, close, adds }
}

/// All ways to put a statement inside another.
const STATEMENT_NESTS: &[Nest] = &[
    nest("{", "}", 1),
    nest("if(true)", "", 1),
    nest("if(true){", "}", 2),
    nest("if(false)1;else ", "", 1),
    nest("if(false){}else{", "}", 2),
    nest("while(true)", "", 1),
    nest("while(false){", "}", 2),
    nest("do ", "while(false);", 1),
    nest("do{", "}while(false);", 2),
    nest("for(int i=0 to 1)", "", 1),
    nest("for(int i=0 to 1){", "}", 2),
];

/// All ways to put an expression inside another, the value staying an int.
const INT_NESTS: &[Nest] = &[
    nest("(", ")", 1),
    nest("-", "", 1),
    nest("zone(", ")", 1),
    nest("1+(", ")", 1),
    nest("2*-", "", 1),
    nest("3-zone(0*", ")", 1),
    nest("1+2*(", ")", 1),
    nest("1-2*-", "", 1),
    nest("1+2*zone(", ")", 1),
];

/// The same for a bool.
const BOOL_NESTS: &[Nest] = &[
    nest("(", ")", 1),
    nest("!", "", 1),
    nest("true&&(", ")", 1),
    nest("false||!", "", 1),
    nest("true==(", ")", 1),
    nest("false||true&&true!=!", "", 1),
];

/// Nesting up to the greatest depth or a little over, by one way or by all.
pub fn depth(random: &mut Random) -> Vec<u8> {
    let target = near(random, MOST_DEPTH);
    let outer = match random.below(4) {
        0 => 1,
        1 => target,
        _ => random.between(1, target),
    };
    let (open, close) = nests(random, STATEMENT_NESTS, outer - 1);
    let leaf = leaf_statement(random, target - outer);
    let mut source = format!("extern int zone(int i);int main(){{{open}{leaf}{close}}}");
    if random.percent(10) {
        source.push_str(random.pick(&[")", "@", "}", ";"]));
    }
    source.into_bytes()
}

/// Opening and closing texts that add so much depth.
fn nests(random: &mut Random, ways: &[Nest], adds: usize) -> (String, String) {
    let only = random.percent(50).then(|| random.pick(ways));
    let (mut open, mut close, mut left) = (String::new(), String::new(), adds);
    while left > 0 {
        let way = only.filter(|way| way.adds <= left).unwrap_or_else(|| random.pick(ways));
        if way.adds <= left {
            open.push_str(way.open);
            close.insert_str(0, way.close);
            left -= way.adds;
        }
    }
    (open, close)
}

/// A statement whose expression goes so much deeper than the statement.
fn leaf_statement(random: &mut Random, deeper: usize) -> String {
    if deeper == 0 {
        const LEAVES: &[&str] = &[
            "1;",
            "{}",
            "int q=1;",
            "return 1;",
            "zone(",
            "if(true)1;",
            "while(true){}",
            "-1;",
            "(1);",
            "1)",
            ")",
            "}",
            "else",
            "do{}while(true);",
            "for(int q=0 to 1)1;",
            "zone;",
            "return;",
        ];
        return random.pick(LEAVES).to_owned();
    }
    if random.percent(30) {
        let (open, close) = nests(random, BOOL_NESTS, deeper);
        let leaf = random.pick(&["true", "false", "1<2", ")", ""]);
        return format!("if({open}{leaf}{close})return 1;");
    }
    let (open, close) = nests(random, INT_NESTS, deeper);
    let leaf = random.pick(&["1", "1", "1", "1+2*3", "x", "-1", "(1)", ")", "", "1 1", "zone()"]);
    let before = random.pick(&["return ", "int q=", "", "1+"]);
    format!("{before}{open}{leaf}{close};")
}

/// Variables up to the most cells or a little over.
pub fn cells(random: &mut Random) -> Vec<u8> {
    let target = near(random, MOST_CELLS);
    let globals = random.pick(&[0, 1, 20, target - 2]);
    let loops = random.below((target - globals) / 2 + 1).min(MOST_DEPTH - 3);
    let locals = target - globals - 2 * loops;
    let mut source = String::new();
    for number in 0..globals {
        source.push_str(&format!("int g{number}={number};"));
    }
    source.push_str("int main(){");
    if random.percent(30) {
        source.push_str(&freed_block(random, target - globals));
    }
    let early = random.between(0, locals);
    source.push_str(&definitions(0, early));
    for number in 0..loops {
        source.push_str(&format!("for(int f{number}=0 to 1)"));
    }
    source.push_str(&format!("{{{}", definitions(early, locals)));
    if random.percent(20) {
        // One more, with a fault that comes before or after that of the cells.
        source.push_str(&format!("int v{}={};", early, random.pick(&["1", "true", "nowhere"])));
    }
    source.push('}');
    source.push_str("return 1;}");
    source.into_bytes()
}

/// A block that takes many cells and gives them back.
fn freed_block(random: &mut Random, room: usize) -> String {
    let taken = random.between(0, room.min(20));
    format!("{{{}}}", definitions(100, 100 + taken))
}

fn definitions(from: usize, to: usize) -> String {
    const KINDS: [&str; 3] = ["int v#=1;", "char v#='a';", "bool v#=true;"];
    (from..to).map(|number| KINDS[number % 3].replace('#', &number.to_string())).collect()
}
