//! Other programs against this interpreter, script by script.

use std::fmt;
use std::io::{self, Read, Write};
use std::process::{Child, Command, Stdio};
use std::sync::mpsc;
use std::thread;
use std::time::Duration;

use crate::answer;
use crate::generate::{self, Generated};
use crate::histogram::{label_of, Histogram};

/// How long a program may take over one script.
const PATIENCE: Duration = Duration::from_secs(20);

/// What a program answers for a source.
type Answer = fn(&[u8]) -> String;

/// The programs that can be compared: the option that gives one, and what it must print.
pub const ROLES: [(&str, Answer); 4] = [
    ("--program", answer::run),
    ("--check", answer::check),
    ("--tokens", answer::tokens),
    ("--outline", answer::outline),
];

/// A program to be compared: its option, its command and what it must print.
#[derive(Clone, Debug)]
pub struct Rival {
    option: &'static str,
    command: Vec<String>,
    answer: Answer,
}

impl Rival {
    /// The program that an option gives by a command, its words parted by spaces.
    pub fn new((option, answer): (&'static str, Answer), command: &str) -> Rival {
        let command = command.split_whitespace().map(str::to_owned).collect();
        Rival { option, command, answer }
    }
}

/// Which scripts are compared with which programs.
#[derive(Clone, Debug)]
#[allow(missing_docs)]
pub struct Comparison {
    pub seed: u64,
    pub count: u64,
    pub rivals: Vec<Rival>,
}

/// How often each answer and each sort of script came.
#[derive(Clone, Debug, Default)]
#[allow(missing_docs)]
pub struct Tally {
    pub answers: Histogram,
    pub families: Histogram,
}

/// Why a comparison did not come to its end.
#[derive(Debug)]
pub enum Failure {
    /// A program printed something else.
    Difference(Box<Difference>),
    /// A program could not be run.
    Unusable(String, io::Error),
}

/// A script to which a program answers otherwise.
#[derive(Debug)]
#[allow(missing_docs)]
pub struct Difference {
    pub seed: u64,
    pub index: u64,
    pub option: &'static str,
    pub generated: Generated,
    pub expected: String,
    pub found: String,
}

impl Comparison {
    /// Compares until the first difference.
    pub fn run(&self) -> Result<Tally, Failure> {
        let mut tally = Tally::default();
        for index in 0..self.count {
            let generated = generate::script(self.seed, index);
            tally.answers.count(label_of(&answer::run(&generated.source)));
            tally.families.count(format!("{:?}", generated.family));
            self.compare_one(index, generated)?;
        }
        Ok(tally)
    }

    /// Starts all programs on a script, then looks at what each printed.
    fn compare_one(&self, index: u64, generated: Generated) -> Result<(), Failure> {
        let mut started = Vec::new();
        for rival in &self.rivals {
            let trial = Trial::start(rival, &generated.source);
            started.push((rival, trial.map_err(|error| unusable(rival, error))?));
        }
        for (rival, trial) in started {
            let expected = (rival.answer)(&generated.source);
            let found = trial.finish().map_err(|error| unusable(rival, error))?;
            if found != expected {
                return Err(Failure::Difference(Box::new(Difference {
                    seed: self.seed,
                    index,
                    option: rival.option,
                    generated,
                    expected,
                    found,
                })));
            }
        }
        Ok(())
    }
}

fn unusable(rival: &Rival, error: io::Error) -> Failure {
    Failure::Unusable(rival.command.join(" "), error)
}

/// A program at work on a script.
struct Trial {
    child: Child,
    printed: mpsc::Receiver<Vec<u8>>,
}

impl Trial {
    fn start(rival: &Rival, source: &[u8]) -> io::Result<Trial> {
        let (program, arguments) =
            rival.command.split_first().ok_or(io::ErrorKind::InvalidInput)?;
        let mut child = Command::new(program)
            .args(arguments)
            .stdin(Stdio::piped())
            .stdout(Stdio::piped())
            .spawn()?;
        let printed = listen(&mut child);
        if let Some(mut input) = child.stdin.take() {
            // A program may have its answer before it has read everything.
            match input.write_all(source) {
                Err(error) if error.kind() != io::ErrorKind::BrokenPipe => return Err(error),
                _ => {}
            }
        }
        Ok(Trial { child, printed })
    }

    /// What the program printed, and a line of its own about a bad end.
    fn finish(mut self) -> io::Result<String> {
        let printed = self.printed.recv_timeout(PATIENCE);
        if printed.is_err() {
            self.child.kill()?;
        }
        let status = self.child.wait()?;
        let mut text = String::from_utf8_lossy(&printed.unwrap_or_default()).into_owned();
        if !status.success() {
            text.push_str(&format!("[{status}]\n"));
        }
        Ok(text)
    }
}

/// Collects what a program prints, beside the work of this thread.
fn listen(child: &mut Child) -> mpsc::Receiver<Vec<u8>> {
    let (sender, receiver) = mpsc::channel();
    let output = child.stdout.take();
    thread::spawn(move || {
        let mut printed = Vec::new();
        if let Some(mut output) = output {
            // What could not be read is missing from the text, and so is a difference.
            let _ = output.read_to_end(&mut printed);
        }
        let _ = sender.send(printed);
    });
    receiver
}

impl fmt::Display for Difference {
    fn fmt(&self, out: &mut fmt::Formatter<'_>) -> fmt::Result {
        let Difference { seed, index, option, generated, expected, found } = self;
        writeln!(out, "difference at script {index} of seed {seed} ({:?})", generated.family)?;
        writeln!(out, "again: oracle script --seed {seed} --index {index}")?;
        writeln!(out, "----- script, {} bytes", generated.source.len())?;
        writeln!(out, "{}", String::from_utf8_lossy(&generated.source))?;
        writeln!(out, "----- escaped\n{}", generated.source.escape_ascii())?;
        writeln!(out, "----- this interpreter for {option}\n{}", expected.trim_end())?;
        write!(out, "----- the program\n{}", found.trim_end())
    }
}

impl fmt::Display for Failure {
    fn fmt(&self, out: &mut fmt::Formatter<'_>) -> fmt::Result {
        match self {
            Failure::Difference(difference) => difference.fmt(out),
            Failure::Unusable(command, error) => write!(out, "{command}: {error}"),
        }
    }
}

impl fmt::Display for Tally {
    fn fmt(&self, out: &mut fmt::Formatter<'_>) -> fmt::Result {
        write!(out, "answers\n{}scripts\n{}", self.answers, self.families)
    }
}
