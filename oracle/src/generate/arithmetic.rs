//! Every operator on the edges of its type, with the result shown.

use crate::random::Random;

/// Ints near which a result changes its sign or wraps.
const INTS: &[&str] = &[
    "0",
    "1",
    "-1",
    "2",
    "-2",
    "7",
    "-7",
    "3",
    "-3",
    "10",
    "-10",
    "46340",
    "46341",
    "65535",
    "65536",
    "-65536",
    "1073741824",
    "-1073741824",
    "2147483646",
    "2147483647",
    "-2147483647",
    "-2147483647-1",
];

/// The same for chars; `one` is the char of value 1.
const CHARS: &[&str] = &[
    "'\\0'",
    "one",
    "-one",
    "one+one",
    "-one-one",
    "'\\a'",
    "-'\\a'",
    "' '",
    "-' '",
    "'@'",
    "-'@'",
    "'~'",
    "-'~'",
    "'~'+one",
    "-'~'-one",
    "-'~'-one-one",
];

const OPERATORS: &[&str] = &["+", "-", "*", "/", "%"];

/// A script that works two values out and compares them in every way.
pub fn arithmetic(random: &mut Random) -> Vec<u8> {
    let script = if random.percent(50) { of_ints(random) } else { of_chars(random) };
    script.into_bytes()
}

fn of_ints(random: &mut Random) -> String {
    let (left, right) = operands(random, INTS, &["-2147483647-1", "-1", "1"]);
    let result = result(random);
    let comparisons = comparisons();
    format!(
        "extern void report(int v);int main(){{int a={left};int b={right};int n=0;\
         {comparisons}report(n);{result}report(a);report(a+b);report(a-b);report(a*b);\
         report(-a);report(a/b);report(a%b);return a/-b;}}"
    )
}

/// A char is shown by comparisons, and in the end by the steps from it to 0.
fn of_chars(random: &mut Random) -> String {
    let (left, right) = operands(random, CHARS, &["-'~'-one-one", "-one", "one"]);
    let result = result(random);
    let comparisons = comparisons();
    let shown: String = OPERATORS.iter().map(|operator| show_char(operator)).collect();
    format!(
        "extern void report(int v);int main(){{char one='b'-'a';char a={left};char b={right};\
         int n=0;{comparisons}report(n);{shown}{result}if(a<-a)report(1);\
         while(a!='\\0'){{a+=one;n+=100;}}return n;}}"
    )
}

/// Where the result of an operator lies among some other chars.
fn show_char(operator: &str) -> String {
    format!(
        "{{char r=a{operator}b;n=0;if(r==a)n+=1;if(r==b)n+=2;if(r<'\\0')n+=4;if(r<' ')n+=8;\
         if(r<'@')n+=16;if(r<-' ')n+=32;if(r<-'@')n+=64;report(n);}}"
    )
}

/// Two values, often of the few for which dividing and negating wrap.
fn operands<'t>(random: &mut Random, all: &[&'t str], few: &[&'t str]) -> (&'t str, &'t str) {
    let from = if random.percent(30) { few } else { all };
    (random.pick(from), random.pick(from))
}

/// Changes `a` by an operator, plainly or as a modifier.
fn result(random: &mut Random) -> String {
    let operator = random.pick(OPERATORS);
    match random.below(4) {
        0 => format!("a{operator}=b;"),
        1 => format!("a=a{operator}-b;"),
        2 => "a=-a;".to_owned(),
        _ => format!("a=a{operator}b;"),
    }
}

fn comparisons() -> String {
    let relations = ["<", "<=", ">", ">=", "==", "!="];
    let weights = 0..relations.len();
    weights.map(|power| format!("if(a{}b)n+={};", relations[power], 1 << power)).collect()
}
