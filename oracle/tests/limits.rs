//! Every limit and its neighbour.

use oracle::answer;

fn in_main(body: &str) -> String {
    format!("int main(){{{body}}}")
}

fn answer_of(source: &str) -> String {
    answer::run(source.as_bytes()).lines().next().unwrap_or_default().to_owned()
}

fn accepted(source: &str) {
    let answer = answer_of(source);
    assert!(!answer.starts_with("refused"), "{answer}: {source}");
}

fn refused(source: &str, number: u32, place: usize) {
    assert_eq!(answer_of(source), format!("refused {number} {place}"), "{source}");
}

/// A text around a middle, so many times.
fn around(open: &str, middle: &str, close: &str, times: usize) -> String {
    format!("{}{middle}{}", open.repeat(times), close.repeat(times))
}

#[test]
fn bytes() {
    let script = in_main("");
    for (length, expected) in [(16_384, "ending returned 0 11"), (16_385, "refused 1 0")] {
        let filling = " ".repeat(length - script.len());
        assert_eq!(answer_of(&format!("{script}{filling}")), expected);
    }
}

#[test]
fn tokens() {
    let full = in_main(&"1;".repeat(509));
    accepted(&full);
    let length = full.len();
    for (behind, number, skip) in
        [("x", 8, 0), (" x", 8, 1), ("@", 4, 0), ("''", 6, 0), ("9999999999", 7, 0), ("/*", 5, 0)]
    {
        refused(&format!("{full}{behind}"), number, length + skip);
    }
    for harmless in [" ", "\n", "//x", "/* x */"] {
        accepted(&format!("{full}{harmless}"));
    }
}

#[test]
fn depth_of_statements() {
    accepted(&in_main(&around("{", "", "}", 32)));
    refused(&in_main(&around("{", "", "}", 33)), 10, 43);
    accepted(&in_main(&around("{", "1;", "}", 31)));
    refused(&in_main(&around("{", "1;", "}", 32)), 10, 43);
    for open in ["if(true)", "while(false)", "for(int i=0 to 1)"] {
        accepted(&in_main(&around(open, "1;", "", 31)));
        refused(&in_main(&around(open, "1;", "", 32)), 10, 11 + 32 * open.len());
    }
    accepted(&in_main(&around("do ", "1;", "while(false);", 31)));
    refused(&in_main(&around("do ", "1;", "while(false);", 32)), 10, 11 + 32 * 3);
    accepted(&in_main(&around("if(true){", "", "}", 16)));
    refused(&in_main(&around("if(true){", "1;", "}", 16)), 10, 155);
}

#[test]
fn chains_of_else_if() {
    accepted(&in_main(&format!("{}if(true)1;", "if(true)1;else ".repeat(30))));
    refused(&in_main(&format!("{}if(true)1;", "if(true)1;else ".repeat(31))), 10, 484);
}

#[test]
fn depth_of_expressions() {
    for (open, close) in [("(", ")"), ("-", ""), ("zone(", ")"), ("1+(", ")")] {
        let script = |times| {
            let body = format!("return {};", around(open, "1", close, times));
            format!("extern int zone(int i);{}", in_main(&body))
        };
        accepted(&script(31));
        refused(&script(32), 10, 23 + 18 + 32 * open.len());
    }
    let not = |times| in_main(&format!("bool b={};", around("!", "true", "", times)));
    accepted(&not(31));
    refused(&not(32), 10, 18 + 32);
}

#[test]
fn depth_where_statements_and_expressions_meet() {
    let inside = |blocks, leaf| in_main(&around("{", leaf, "}", blocks));
    accepted(&inside(31, "1+1*1<2;"));
    refused(&inside(31, "-1;"), 10, 43);
    refused(&inside(31, "(1);"), 10, 43);
    refused(&inside(31, "if(true)1;"), 10, 50);
    accepted(&inside(30, "if((true))1;"));
    refused(&inside(30, "- -1;"), 10, 44);
    accepted(&inside(30, "-1*2;"));
}

#[test]
fn a_token_that_fits_nowhere_is_not_too_deep() {
    refused(&format!("int main(){{{}1)", "{".repeat(32)), 10, 43);
    refused(&format!("int main(){{{})", "{".repeat(32)), 9, 43);
    refused(&format!("int main(){{{}", "{".repeat(32)), 9, 43);
    refused(&in_main(&format!("return {});", "(".repeat(32))), 9, 50);
}

#[test]
fn long_chains_are_not_deep() {
    let chain = in_main(&format!("return 1{};", "+1".repeat(500)));
    assert_eq!(answer_of(&chain), "ending returned 501 11");
    let most = in_main(&format!("if(true{})return 1;", "&&true".repeat(500)));
    accepted(&most);
}

/// Definitions of so many variables.
fn variables(count: usize) -> String {
    (0..count).map(|number| format!("int v{number}=0;")).collect()
}

#[test]
fn cells() {
    accepted(&in_main(&variables(64)));
    refused(&in_main(&variables(65)), 17, 11 + 10 * 9 + 54 * 10 + 4);
    accepted(&format!("{}int main(){{}}", variables(64)));
    refused(&format!("{}int main(){{}}", variables(65)), 17, 10 * 9 + 54 * 10 + 4);
    refused(&format!("{}int main(){{int x=1;}}", variables(64)), 17, 10 * 9 + 54 * 10 + 15);
}

#[test]
fn cells_of_for() {
    let loops = "for(int q=0 to 1){}for(int q=0 to 1){}";
    accepted(&in_main(&format!("{}{loops}", variables(62))));
    refused(&in_main(&format!("{}{loops}", variables(63))), 17, 639);
    refused(&in_main(&format!("{}{loops}", variables(64))), 17, 649);
    accepted(&in_main(&format!("{}for(int q=0 to 1)int w=1;", variables(61))));
    refused(&in_main(&format!("{}for(int q=0 to 1)int w=1;", variables(62))), 17, 11 + 610 + 21);
}

#[test]
fn cells_are_free_after_their_level() {
    let block = format!("{{{}}}", variables(40));
    accepted(&in_main(&format!("{block}{block}")));
    refused(
        &in_main(&format!("{{{}{block}}}", variables(40))),
        17,
        1 + 11 + 390 + 1 + 10 * 9 + 14 * 10 + 4,
    );
}
