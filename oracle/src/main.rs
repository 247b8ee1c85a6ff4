//! The command line.

use std::collections::BTreeMap;
use std::io::{self, Read, Write};
use std::process::ExitCode;

use oracle::answer;
use oracle::compare::{Comparison, Failure, Rival, ROLES};
use oracle::generate;

const USAGE: &str = "usage:
  oracle run | check | tokens | outline     a script on standard input
  oracle script --seed S --index I          prints a generated script
  oracle compare --seed S --count N [--program COMMAND] [--check COMMAND]
                 [--tokens COMMAND] [--outline COMMAND]
                                            a COMMAND is a path, and words after it";

fn main() -> ExitCode {
    let arguments: Vec<String> = std::env::args().skip(1).collect();
    let Some((command, rest)) = arguments.split_first() else {
        return misuse("no command");
    };
    let done = match (command.as_str(), rest) {
        ("run", []) => print_answer(answer::run),
        ("check", []) => print_answer(answer::check),
        ("tokens", []) => print_answer(answer::tokens),
        ("outline", []) => print_answer(answer::outline),
        ("script", _) => print_script(rest),
        ("compare", _) => compare(rest),
        _ => Err(Trouble::Usage(format!("unknown command {command}"))),
    };
    match done {
        Ok(()) => ExitCode::SUCCESS,
        Err(Trouble::Difference(text)) => {
            println!("{text}");
            ExitCode::from(1)
        }
        Err(Trouble::Failed(text)) => {
            eprintln!("oracle: {text}");
            ExitCode::from(2)
        }
        Err(Trouble::Usage(text)) => misuse(&text),
    }
}

/// Why a command did not do what it was asked.
enum Trouble {
    Difference(String),
    Failed(String),
    Usage(String),
}

impl From<io::Error> for Trouble {
    fn from(error: io::Error) -> Trouble {
        Trouble::Failed(error.to_string())
    }
}

fn misuse(text: &str) -> ExitCode {
    eprintln!("oracle: {text}\n{USAGE}");
    ExitCode::from(2)
}

fn print_answer(answer: fn(&[u8]) -> String) -> Result<(), Trouble> {
    let mut source = Vec::new();
    io::stdin().read_to_end(&mut source)?;
    Ok(io::stdout().write_all(answer(&source).as_bytes())?)
}

/// Options with their values.
struct Options(BTreeMap<String, String>);

impl Options {
    fn new(words: &[String], known: &[&str]) -> Result<Options, Trouble> {
        let mut options = BTreeMap::new();
        for pair in words.chunks(2) {
            match pair {
                [option, value] if known.contains(&option.as_str()) => {
                    options.insert(option.clone(), value.clone());
                }
                _ => return Err(Trouble::Usage(format!("cannot use {}", pair.join(" ")))),
            }
        }
        Ok(Options(options))
    }

    fn number(&self, option: &str) -> Result<u64, Trouble> {
        let value =
            self.0.get(option).ok_or_else(|| Trouble::Usage(format!("{option} is missing")))?;
        value.parse().map_err(|_| Trouble::Usage(format!("{option} {value} is no number")))
    }
}

fn print_script(words: &[String]) -> Result<(), Trouble> {
    let options = Options::new(words, &["--seed", "--index"])?;
    let generated = generate::script(options.number("--seed")?, options.number("--index")?);
    Ok(io::stdout().write_all(&generated.source)?)
}

fn compare(words: &[String]) -> Result<(), Trouble> {
    let mut known = vec!["--seed", "--count"];
    known.extend(ROLES.map(|(option, _)| option));
    let options = Options::new(words, &known)?;
    let rival =
        |role: (&'static str, _)| options.0.get(role.0).map(|command| Rival::new(role, command));
    let comparison = Comparison {
        seed: options.number("--seed")?,
        count: options.number("--count")?,
        rivals: ROLES.into_iter().filter_map(rival).collect(),
    };
    let tally = comparison.run().map_err(|failure| match failure {
        Failure::Difference(difference) => Trouble::Difference(difference.to_string()),
        failure @ Failure::Unusable(..) => Trouble::Failed(failure.to_string()),
    })?;
    let (count, programs) = (comparison.count, comparison.rivals.len());
    writeln!(io::stdout(), "{tally}{count} scripts, {programs} programs, no difference")?;
    Ok(())
}
