//! Scripts in which the order of work decides how the run ends.

use crate::random::Random;

/// Ints that end a run where they are worked out, and some that do not.
const INTS: &[&str] = &[
    "1/0",
    "2%0",
    "zone(99)",
    "zone(-1)",
    "zone(1/0)",
    "1",
    "2",
    "0",
    "zone(3)",
    "columns()",
    "n",
];

/// Bools, some of which end a run.
const BOOLS: &[&str] = &["true", "false", "1/0==1", "zone(12)>0", "1<2", "t", "f", "!t"];

/// Statements with gaps: `#` for an int, `?` for a bool.
const FRAMES: &[&str] = &[
    "report(#+#);",
    "report(#-#*#);",
    "report(#/#);",
    "report(#%#);",
    "n=#;report(n);",
    "n+=#;report(n);",
    "n/=#;report(n);",
    "n%=#;report(n);",
    "t=?&&?;if(t)report(1);",
    "t=?||?;if(t)report(2);",
    "t=?&&?||?;if(t)report(3);",
    "t=?||?&&?;if(t)report(4);",
    "t&&=?;if(t)report(5);",
    "t||=?;if(t)report(6);",
    "f&&=?;if(f)report(7);",
    "f||=?;if(f)report(8);",
    "t=#<#;if(t)report(9);",
    "t=#==#;if(t)report(10);",
    "t=?!=?;if(t)report(11);",
    "if(?)report(12);else report(#);",
    "while(?){report(13);t=false;if(?)break;}",
    "do{report(14);if(?)continue;report(#);}while(?);",
    "for(int i=# to #)report(i);",
    "for(int i=# to 3){report(i);if(?)continue;n+=1;}",
    "for(int i=0 to 4){if(?)break;if(i==2)i=#;report(i);}",
    "zone(#);",
    "{int n=#;bool t=?;report(n);if(t)report(15);}",
    "return #;",
];

/// A few such statements.
pub fn order(random: &mut Random) -> Vec<u8> {
    let mut script = String::from(
        "extern int zone(int i);extern int columns();extern void report(int v);\
         int main(){int n=5;bool t=true;bool f=false;",
    );
    for _ in 0..random.between(1, 4) {
        for letter in random.pick(FRAMES).chars() {
            match letter {
                '#' => script.push_str(random.pick(INTS)),
                '?' => script.push_str(random.pick(BOOLS)),
                _ => script.push(letter),
            }
        }
    }
    script.push_str("return n;}");
    script.into_bytes()
}
