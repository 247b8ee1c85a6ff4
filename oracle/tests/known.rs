//! Scripts whose answers are known from the language itself.
//!
//! In these tables `M` stands for `int main()`, and a middle dot stands before
//! the byte at whose place the answer must be; it is no part of the script.

use oracle::answer;

const DOT: &str = "·";

/// The script without its dot, and the place of the dot.
fn without_dot(script: &str) -> (String, Option<usize>) {
    let script = script.replacen("M{", "int main(){", 1);
    let place = script.find(DOT);
    (script.replacen(DOT, "", 1), place)
}

/// What the program prints, its lines joined by slashes.
fn run(script: &str) -> String {
    answer::run(script.as_bytes()).trim_end().replace('\n', " / ")
}

/// An expected answer with the place that the dot gives; ticks follow the place.
fn with_place(expected: &str, place: Option<usize>) -> String {
    let Some(place) = place else {
        return expected.to_owned();
    };
    let ticks = expected.find(" / ticks").unwrap_or(expected.len());
    format!("{} {place}{}", &expected[..ticks], &expected[ticks..])
}

/// Each script's answer is the table's; where the table is silent about ticks, they do not matter.
fn expect(table: &[(&str, &str)]) {
    for (script, expected) in table {
        let (source, place) = without_dot(script);
        let expected = with_place(expected, place);
        let mut answer = run(&source);
        if !expected.contains("ticks") {
            answer.truncate(answer.find(" / ticks").unwrap_or(answer.len()));
        }
        assert_eq!(answer, expected, "{script}");
    }
}

#[test]
fn first_results() {
    expect(&[
        ("", "refused 9 0"),
        ("M{return 2147483647+1;}", "ending returned -2147483648 11"),
        ("M{return 1/0;}", "ending divided 0 19"),
        ("M{int i=1;int i=2;}", "refused 12 23"),
        ("int i=2;M{int i=i;return i;}", "ending returned 2 27"),
        ("M{return 1+true;}", "refused 15 19"),
        ("M{char c='a';c+=c;if(c<'\\0')return 1;}", "ending returned 1 37"),
        ("M{for(int i=0 to 3)continue;}", "ending returned 0 37 / ticks 4"),
    ]);
}

#[test]
fn five_ticks_of_an_endless_loop() {
    let outcome = answer::outcome(b"int main(){while(true){}}", 5).expect("accepted");
    assert_eq!(answer::listing(&outcome), "ending waiting 0 11\nticks 5\n");
}

#[test]
fn the_mean_of_all_zones() {
    let script = "extern int zone(int i);extern void report(int v);int main(){int s=0;\
                  for(int i=0 to 12)s+=zone(i);report(s/12);return s;}";
    assert_eq!(run(script), "report 55 / ending returned 660 110 / ticks 13");
}

#[test]
fn comments() {
    expect(&[
        ("·/*/", "refused 5"),
        ("M{·/*/}", "refused 5"),
        ("M{/* /* */·}", "ending returned 0"),
        ("M{//x\r return 5;\n·return 6;}", "ending returned 6"),
        ("M{·}//abc", "ending returned 0"),
        ("M{/*@'\"\u{0}*/·}", "ending returned 0"),
        ("M{/**/·}", "ending returned 0"),
        ("M{}·/*", "refused 5"),
    ]);
    assert_eq!(answer::run(b"int main(){/*\xff*/}"), "ending returned 0 16\nticks 0\n");
}

#[test]
fn numbers() {
    expect(&[
        ("M{return 0·x;}", "refused 9"),
        ("M{return 0·xg;}", "refused 9"),
        ("M{return 0·X1F;}", "refused 9"),
        ("M{return 0x1F+0·Xf;}", "refused 9"),
        ("M{·return 0xfF;}", "ending returned 255"),
        ("M{·return 010;}", "ending returned 10"),
        ("M{·return 0x00000000007fffffff;}", "ending returned 2147483647"),
        ("M{·return 0x7fffffff;}", "ending returned 2147483647"),
        ("M{return ·0x80000000;}", "refused 7"),
        ("M{return ·2147483648;}", "refused 7"),
        ("M{return ·99999999999999999999999999;}", "refused 7"),
        ("M{return 12·abc;}", "refused 9"),
        ("M{return 1·_;}", "refused 4"),
        ("M{int i=-·2147483648;}", "refused 7"),
        ("M{·return -2147483647-1;}", "ending returned -2147483648"),
    ]);
}

#[test]
fn numbers_of_many_digits() {
    let zeros = "0".repeat(400);
    expect(&[
        (&format!("M{{·return {zeros}7;}}"), "ending returned 7"),
        (&format!("M{{·return 0x{zeros}7;}}"), "ending returned 7"),
        (&format!("M{{return ·1{zeros};}}"), "refused 7"),
        (&format!("M{{return ·0x1{zeros};}}"), "refused 7"),
    ]);
}

#[test]
fn character_constants() {
    expect(&[
        ("M{char c=·'ab';}", "refused 6"),
        ("M{char c='\"';·}", "ending returned 0"),
        ("M{char c='?';·}", "ending returned 0"),
        ("M{char c=' ';·}", "ending returned 0"),
        ("M{char c=·'\t';}", "refused 6"),
        ("M{char c=·'\n';}", "refused 6"),
        ("M{char c=·'\u{7f}';}", "refused 6"),
        ("M{char c=·'é';}", "refused 6"),
        ("M{char c=·'';}", "refused 6"),
        ("M{char c=·''';}", "refused 6"),
        ("M{char c=·'\\00';}", "refused 6"),
        ("M{char c=·'\\x41';}", "refused 6"),
        ("M{char c=·'\\e';}", "refused 6"),
        ("M{char c=·'\\'", "refused 6"),
        ("M{char c=·'", "refused 6"),
    ]);
}

#[test]
fn values_of_characters() {
    let values = [
        ("\\n", 10),
        ("\\t", 9),
        ("\\r", 13),
        ("\\a", 7),
        ("\\b", 8),
        ("\\f", 12),
        ("\\v", 11),
        ("\\0", 0),
        ("\\\\", 92),
        ("\\'", 39),
        ("\\\"", 34),
        ("\\?", 63),
        ("\"", 34),
        ("~", 126),
    ];
    for (text, value) in values {
        let listing = answer::tokens(format!("'{text}'").as_bytes());
        let length = text.len() + 2;
        assert_eq!(listing, format!("character 0 {length} {value} '{text}'\ntokens 1\n"));
    }
}

#[test]
fn bytes_that_begin_no_token() {
    for byte in 0..=255u8 {
        let expected = match byte {
            b' ' | b'\t' | b'\n' | b'\r' => "tokens 0\n",
            b'\'' => "refused 6 0\n",
            b'A'..=b'Z' | b'a'..=b'z' | b'0'..=b'9' => "tokens 1\n",
            _ if b"+-*/%=!<>(){},;".contains(&byte) => "tokens 1\n",
            _ => "refused 4 0\n",
        };
        let listing = answer::tokens(&[byte]);
        assert!(listing.ends_with(expected), "byte {byte}: {listing}");
    }
    expect(&[
        ("true&&·&true", "refused 4"),
        ("M{bool b=true·|true;}", "refused 4"),
        ("M{·\u{c}}", "refused 4"),
        ("M{·\u{b}}", "refused 4"),
        ("M{·_a=1;}", "refused 4"),
        ("M{int·[2] a;}", "refused 4"),
        ("M{1·.5;}", "refused 4"),
        ("·#define A 1\nM{}", "refused 4"),
    ]);
}

#[test]
fn token_listings() {
    let listing = answer::tokens(b"a&&=b<=0x1f+=true");
    let expected = "name 0 1 0 a\n&&= 1 3 0 &&=\nname 4 1 0 b\n<= 5 2 0 <=\n\
                    number 7 4 31 0x1f\n+= 11 2 0 +=\ntrue 13 4 0 true\ntokens 7\n";
    assert_eq!(listing, expected);
    assert_eq!(answer::tokens(b"0x"), "number 0 1 0 0\nname 1 1 0 x\ntokens 2\n");
    assert_eq!(answer::tokens(b"int @"), "refused 4 4\n");
    assert_eq!(answer::tokens(b""), "tokens 0\n");
}

#[test]
fn stages_come_one_after_the_other() {
    expect(&[
        (") ·@", "refused 4"),
        ("M{x=1;·)", "refused 9"),
        ("M{x;·", "refused 9"),
        ("M{ ·", "refused 9"),
        ("M{ /* a */ //·", "refused 9"),
    ]);
}

#[test]
fn grammar_of_declarations() {
    expect(&[
        ("bool main·(){}", "refused 9"),
        ("int foo·(){}", "refused 9"),
        ("int main(·void){}", "refused 9"),
        ("int main(·int a){}", "refused 9"),
        ("·void main(){}", "refused 9"),
        ("static M{·}", "ending returned 0"),
        ("static ·extern int rows();M{}", "refused 9"),
        ("extern int ·main();M{}", "refused 11"),
        ("extern int zone(int·);M{}", "refused 9"),
        ("extern int zone(int i·,int j);M{}", "refused 9"),
        ("extern int x·;M{}", "refused 9"),
        ("extern ·float f();M{}", "refused 9"),
        ("·float f=1;M{}", "refused 9"),
        ("int g=·-1;M{}", "refused 9"),
        ("int g=1·+1;M{}", "refused 9"),
        ("int g·;M{}", "refused 9"),
        ("M{}·;", "refused 9"),
        ("M{}·M{}", "refused 9"),
        ("int ·to=1;M{}", "refused 9"),
        ("int main=1;·", "refused 9"),
    ]);
}

#[test]
fn grammar_of_statements() {
    expect(&[
        ("M{·;}", "refused 9"),
        ("M{·static int x=1;}", "refused 9"),
        ("M{·extern int rows();}", "refused 9"),
        ("M{·float f=1;}", "refused 9"),
        ("M{int x=1;(x)·=1;}", "refused 9"),
        ("M{int x=1;int y=1;x=y·=1;}", "refused 9"),
        ("M{1·=2;}", "refused 9"),
        ("M{·else 1;}", "refused 9"),
        ("M{do 1;while(false)·}", "refused 9"),
        ("M{for(·char c='a' to 'b')1;}", "refused 9"),
        ("M{for(int i=0·;i)1;}", "refused 9"),
        ("M{return 1 ·2;}", "refused 9"),
        ("M{x ·1;}", "refused 9"),
        ("M{zone(·,1);}", "refused 9"),
        ("M{zone(1,·);}", "refused 9"),
        ("M{(1·;}", "refused 9"),
        ("M{if(true)if(false)return 1;else ·return 2;}", "ending returned 2"),
    ]);
}

#[test]
fn precedence_and_grouping() {
    expect(&[
        ("M{·return 2-3*4;}", "ending returned -10"),
        ("M{·return 1-2-3;}", "ending returned -4"),
        ("M{·return 8/4/2;}", "ending returned 1"),
        ("M{·return -2*3;}", "ending returned -6"),
        ("M{if(1<2==true)·return 1;}", "ending returned 1"),
        ("M{if(true||false&&false)·return 1;}", "ending returned 1"),
        ("M{if(!true==false)·return 1;}", "ending returned 1"),
        ("M{if(1+1==2&&3>2)·return 1;}", "ending returned 1"),
    ]);
}

#[test]
fn names() {
    expect(&[
        ("int main=1;M{return ·main;}", "refused 14"),
        ("int main=1;M{·main=2;}", "refused 14"),
        ("M{·main();}", "refused 14"),
        ("M{int main=3;·return main;}", "ending returned 3"),
        ("int main=1;int ·main=2;M{}", "refused 12"),
        ("extern int zone(int i);extern bool ·zone(int i);M{}", "refused 11"),
        ("extern int zone(int zone);M{·}", "ending returned 0"),
        ("extern int ·zone(bool b);M{}", "refused 11"),
        ("extern void ·zone(int i);M{}", "refused 11"),
        ("extern int ·zone();M{}", "refused 11"),
        ("extern int ·columns(int i);M{}", "refused 11"),
        ("extern int ·report(int i);M{}", "refused 11"),
        ("extern int rows();extern int ·rows();M{}", "refused 12"),
        ("extern int rows();int ·rows=1;M{}", "refused 12"),
        ("int rows=1;extern int ·rows();M{}", "refused 12"),
        ("int ·g=true;extern int x();M{}", "refused 15"),
        ("int g=1;bool ·g=1;M{}", "refused 15"),
        ("int g=1;int ·g=1;M{}", "refused 12"),
        ("M{int x=1;{x=2;int x=5;x=6;}·return x;}", "ending returned 2"),
        ("M{·x=1;int x=2;}", "refused 13"),
        ("M{{int x=1;}·x=2;}", "refused 13"),
        ("M{int i=5;for(int i=i to i+2)i;·return i;}", "ending returned 5 / ticks 3"),
        ("M{for(int i=0 to 3)int i=1;·}", "ending returned 0 / ticks 4"),
        ("M{for(int i=0 to 1)1;for(int i=0 to 1)1;return ·i;}", "refused 13"),
        ("M{return 1;·x;}", "refused 13"),
    ]);
}

#[test]
fn uses_of_functions_and_variables() {
    expect(&[
        ("extern int zone(int i);M{·zone=y;}", "refused 14"),
        ("extern int zone(int i);M{·zone;}", "refused 14"),
        ("M{int x=1;·x(y);}", "refused 14"),
        ("M{·nowhere(alsonot);}", "refused 13"),
        ("M{·nowhere=alsonot;}", "refused 13"),
        ("extern int rows();M{int rows=2;return ·rows();}", "refused 14"),
    ]);
}

#[test]
fn types_of_operators() {
    expect(&[
        ("M{bool b=1<2·<3;}", "refused 15"),
        ("M{bool b=1·==true;}", "refused 15"),
        ("M{bool b=true==false;·}", "ending returned 0"),
        ("M{bool b=true·<false;}", "refused 15"),
        ("M{bool b=1·&&true;}", "refused 15"),
        ("M{int x='a'·+1;}", "refused 15"),
        ("M{int ·x=-'a';}", "refused 15"),
        ("M{·-true;}", "refused 15"),
        ("M{·!1;}", "refused 15"),
        ("M{1·+true+x;}", "refused 15"),
        ("M{char c='a';c·+=1;}", "refused 15"),
        ("M{bool b=true;b·+=true;}", "refused 15"),
        ("M{int x=1;x·&&=x;}", "refused 15"),
        ("M{int x=1;x·=true;}", "refused 15"),
        ("M{int x=1;x=·y;}", "refused 13"),
    ]);
}

#[test]
fn types_of_calls() {
    expect(&[
        ("extern int zone(int i);M{·zone();}", "refused 15"),
        ("extern int zone(int i);M{·zone(1,2);}", "refused 15"),
        ("extern int zone(int i);M{·zone(true);}", "refused 15"),
        ("extern int zone(int i);M{zone(true,·x);}", "refused 13"),
        ("extern void report(int v);M{(·report(1));}", "refused 15"),
        ("extern void report(int v);M{return ·report(1);}", "refused 15"),
        ("extern void report(int v);M{report(·report(1));}", "refused 15"),
        ("extern void report(int v);M{int x=1;x=report(·y);}", "refused 13"),
        ("extern void report(int v);M{report(1);·}", "report 1 / ending returned 0"),
    ]);
}

#[test]
fn types_of_statements() {
    expect(&[
        ("M{·return;}", "refused 15"),
        ("M{·return true;}", "refused 15"),
        ("M{·return 'a';}", "refused 15"),
        ("M{return ·x;}", "refused 13"),
        ("M{·if(1)x;}", "refused 15"),
        ("M{·while('a'){}}", "refused 15"),
        ("M{·do{}while(1);}", "refused 15"),
        ("M{do ·x;while(1);}", "refused 13"),
        ("M{do int x=1;while(·x==1);}", "refused 13"),
        ("M{if(true)int x=1;else ·x=2;}", "refused 13"),
        ("M{for(int i=true to ·x){}}", "refused 13"),
        ("M{·for(int i=true to 3){x;}}", "refused 15"),
        ("M{·for(int i=0 to 'a'){}}", "refused 15"),
        ("M{int ·x=true;}", "refused 15"),
        ("M{int x=1;bool ·x=1;}", "refused 15"),
        ("M{·break;}", "refused 16"),
        ("M{if(true){·continue;}}", "refused 16"),
        ("M{while(true){if(true){break;}}·}", "ending returned 0 / ticks 1"),
        ("M{do{if(true)break;}while(true);·continue;}", "refused 16"),
    ]);
}

#[test]
fn long_names_differ_to_the_last_byte() {
    let stem = "a".repeat(40);
    let script = format!("M{{int {stem}1=1;int {stem}2=2;·return {stem}1*10+{stem}2;}}");
    expect(&[(&script, "ending returned 12")]);
}

#[test]
fn division() {
    expect(&[
        ("M{·return -7/2*100+-7%2;}", "ending returned -301"),
        ("M{·return 7%-3*10+-7%3;}", "ending returned 9"),
        ("M{·return (-2147483647-1)/-1;}", "ending returned -2147483648"),
        ("M{·return (-2147483647-1)%-1;}", "ending returned 0"),
        ("M{return 1·%0;}", "ending divided 0"),
        ("M{int a=0;a·/=0;}", "ending divided 0"),
        ("M{int a=0;a·%=a;}", "ending divided 0"),
        ("M{char c='a'·/'\\0';}", "ending divided 0"),
    ]);
}

#[test]
fn the_least_char() {
    let least = "M{char one='b'-'a';char m=-'~'-one-one;";
    expect(&[
        (&format!("{least}if(m/-one==m)·return 1;}}"), "ending returned 1"),
        (&format!("{least}if(m%-one=='\\0')·return 2;}}"), "ending returned 2"),
        (&format!("{least}if(-m==m)·return 3;}}"), "ending returned 3"),
        (&format!("{least}if(m-one=='~'+one)·return 4;}}"), "ending returned 4"),
    ]);
}

#[test]
fn order_and_short_circuit() {
    let board = "extern int zone(int i);";
    expect(&[
        ("M{bool b=false&&1/0==1;·return 1;}", "ending returned 1"),
        ("M{bool b=true||1/0==1;·return 1;}", "ending returned 1"),
        ("M{bool b=true&&1·/0==1;return 1;}", "ending divided 0"),
        ("M{bool b=false;b&&=1/0==1;·return 5;}", "ending returned 5"),
        ("M{bool b=true;b||=1/0==1;·return 5;}", "ending returned 5"),
        (&format!("{board}M{{return ·zone(99)+1/0;}}"), "ending board 23"),
        (&format!("{board}M{{return 1·/0+zone(99);}}"), "ending divided 0"),
        (&format!("{board}M{{for(int i=1·/0 to zone(99)){{}}}}"), "ending divided 0"),
    ]);
}

#[test]
fn loops_and_ticks() {
    expect(&[
        ("M{int k=0;do k+=1;while(k<3);·return k;}", "ending returned 3 / ticks 3"),
        ("M{int k=0;while(k<3)k+=1;·return k;}", "ending returned 3 / ticks 4"),
        ("M{do{continue;}while(false);·return 3;}", "ending returned 3 / ticks 1"),
        ("M{·do{}while(true);}", "ending waiting 0 / ticks 1000"),
        ("M{·while(true){}}", "ending waiting 0 / ticks 1000"),
        ("M{·for(int i=0 to 3){i=2147483647;}}", "ending waiting 0 / ticks 1000"),
        ("M{int n=3;for(int i=0 to n){n=100;}·return n;}", "ending returned 100 / ticks 4"),
        ("M{for(int i=0 to 9){if(i==4)break;}·}", "ending returned 0 / ticks 5"),
        ("M{for(int i=5 to 5)1/0;·}", "ending returned 0 / ticks 1"),
        ("M{for(int i=0 to 999){}·}", "ending returned 0 / ticks 1000"),
        ("M{·for(int i=0 to 1000){}}", "ending waiting 0 / ticks 1000"),
        ("M{·}", "ending returned 0 / ticks 0"),
    ]);
    let outcome = answer::outcome(b"int main(){return 7;}", 0).expect("accepted");
    assert_eq!(answer::listing(&outcome), "ending returned 7 11\nticks 0\n");
}

#[test]
fn refusals_of_the_board() {
    let board = "extern int zone(int i);extern void report(int v);";
    expect(&[
        ("extern int zone(int i);M{return ·zone(12);}", "ending board 23"),
        ("extern int zone(int i);M{return ·zone(-1);}", "ending board 23"),
        ("extern int zone(int i);M{·return zone(11);}", "ending returned 110"),
        (&format!("{board}M{{report(1);report(·zone(99));}}"), "report 1 / ending board 23"),
    ]);
    let reports: String = (0..16).map(|report| format!("report {report} / ")).collect();
    let script = "extern void report(int v);M{for(int i=0 to 99)·report(i);}";
    expect(&[(script, &format!("{reports}ending board 24 / ticks 17"))]);
}

#[test]
fn the_check() {
    assert_eq!(answer::check(b""), "589824\n");
    assert_eq!(answer::check(b"int main(){}"), "0\n");
    assert_eq!(answer::check(b"int main(){x;}"), format!("{}\n", 13 * 65_536 + 11));
    assert_eq!(answer::check(&[b' '; 16_385]), "65536\n");
}

#[test]
fn the_outline() {
    assert_eq!(answer::outline(b"int main(){x;return;}"), "accepted\n");
    assert_eq!(answer::outline(b"int main(){x;return;"), "refused 9 20\n");
    assert_eq!(answer::outline(b"int main(){@"), "refused 4 11\n");
}
