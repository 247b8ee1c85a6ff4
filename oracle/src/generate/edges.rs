//! Constants, loops and calls at the edges of what they may be.

use crate::random::Random;

/// Values about which an accumulator of some width may be wrong.
#[rustfmt::skip]
const VALUES: &[u64] = &[
    0, 1, 7, 8, 9, 10, 15, 16, 2_147_483_646, 2_147_483_647, 2_147_483_648, 2_147_483_649,
    4_294_967_295, 4_294_967_296, 9_999_999_999, 9_223_372_036_854_775_807,
    9_223_372_036_854_775_808, 18_446_744_073_709_551_615,
];

/// Numbers at the edge of an int, in both notations.
pub fn numbers(random: &mut Random) -> Vec<u8> {
    let value = random.pick(VALUES);
    let zeros = "0".repeat(random.pick(&[0, 0, 0, 1, 8, 40]));
    let number = match random.below(9) {
        0..=2 => format!("{zeros}{value}"),
        3 | 4 => format!("0x{zeros}{value:x}"),
        5 => format!("0x{zeros}{value:X}"),
        6 | 7 => {
            random.pick(&["0x", "0xg", "0X1", "0x1g", "1x1", "0b1", "1.5", "1e5", "0_1"]).to_owned()
        }
        _ => "9".repeat(random.between(9, 400)),
    };
    let (before, after) = random.pick(&[
        ("int main(){return ", ";}"),
        ("int main(){return -", "-1;}"),
        ("int g=", ";int main(){return g;}"),
        ("int main(){return 1+", ";}"),
        ("int main(){int x=", ";return x/2;}"),
    ]);
    format!("{before}{number}{after}").into_bytes()
}

/// Character constants of every kind, and single bytes where a token must begin.
pub fn characters(random: &mut Random) -> Vec<u8> {
    const STRAYS: &[u8] = b"\0\x08\x0b\x0c\x1f\x7f\x80\x85\xa0\xff_&|\"#[].?:^~@$`\\'";
    let byte = if random.percent(50) { random.byte() } else { random.pick(STRAYS) };
    let mut source = Vec::new();
    match random.below(6) {
        0 => source.push(byte),
        1 => {
            source.extend_from_slice(b"int main(){");
            source.extend_from_slice(&[byte, b'}']);
        }
        2 => {
            source.extend_from_slice(b"int main(){return 1");
            source.extend_from_slice(&[byte, random.pick(b"=&| 1*/"), b'1', b';', b'}']);
        }
        _ => {
            let constant = character_constant(random, byte);
            source.extend_from_slice(b"int main(){char c=");
            source.extend_from_slice(&constant);
            source.extend_from_slice(b";char k='\\0';int n=0;");
            source.extend_from_slice(b"while(k!=c){k+='b'-'a';n+=1;}return n;}");
        }
    }
    source
}

fn character_constant(random: &mut Random, byte: u8) -> Vec<u8> {
    const EDGES: &[u8] = &[9, 10, 31, 32, 33, 34, 39, 63, 92, 126, 127, 128, 255];
    let plain = if random.percent(25) { byte } else { random.pick(EDGES) };
    match random.below(9) {
        0..=3 => vec![b'\'', plain, b'\''],
        4 => vec![b'\'', b'\\', random.pick(b"ntrabfv0\\'\"?"), b'\''],
        5 => vec![b'\'', b'\\', plain, b'\''],
        6 => vec![b'\'', plain],
        7 => vec![b'\'', plain, byte, b'\''],
        _ => b"'\\'".to_vec(),
    }
}

/// Loops that spend about all ticks.
pub fn ticks(random: &mut Random) -> Vec<u8> {
    let rounds = random.pick(&[0, 1, 10, 998, 999, 1_000, 1_001]);
    let body =
        random.pick(&["", "continue;", "if(n%7==3)continue;", "if(n==500)break;", "{int n=1;}"]);
    let script = match random.below(6) {
        0 => format!("for(int i=0 to {rounds}){{n+=1;{body}}}"),
        1 => format!("while(n<{rounds}){{n+=1;{body}}}"),
        2 => format!("do{{n+=1;{body}}}while(n<{rounds});"),
        3 => format!("for(int i=0 to 30)for(int j=0 to {}){{n+=1;{body}}}", rounds % 33),
        4 => format!(
            "for(int i=0 to 3){{n+=1;if(n==1)i=2147483647;if(i<0&&n>{rounds})break;{body}}}"
        ),
        _ => format!("int m=3;for(int i=n to m){{m={rounds};n+=1;i+=m-1000;{body}}}"),
    };
    format!("int main(){{int n=0;{script}return n;}}").into_bytes()
}

/// Zones and reports at their edges.
pub fn board(random: &mut Random) -> Vec<u8> {
    let index = random.pick(&[
        "-1",
        "0",
        "11",
        "12",
        "13",
        "2147483647",
        "-2147483647-1",
        "rows()*columns()",
    ]);
    let reports = random.between(14, 18);
    let script = match random.below(5) {
        0 => format!("return zone({index});"),
        1 => format!("report(1);report(zone({index}));return 1/0;"),
        2 => format!("for(int i=0 to {reports})report(i*i);return columns()*10+rows();"),
        3 => format!("for(int i={index} to 12)report(zone(i));"),
        _ => format!("{}return zone({index})+1/(rows()-3);", "report(-7);".repeat(reports)),
    };
    let externs =
        "extern int zone(int i);extern int columns();extern int rows();extern void report(int v);";
    format!("{externs}int main(){{{script}}}").into_bytes()
}
