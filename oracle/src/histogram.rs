//! How often each answer came.

use std::collections::BTreeMap;
use std::fmt;

/// Counts by label, in the order of the labels.
#[derive(Clone, Debug, Default)]
pub struct Histogram {
    counts: BTreeMap<String, usize>,
}

impl Histogram {
    /// Counts a label once more.
    pub fn count(&mut self, label: String) {
        *self.counts.entry(label).or_default() += 1;
    }

    /// How often the label came.
    pub fn of(&self, label: &str) -> usize {
        self.counts.get(label).copied().unwrap_or(0)
    }
}

impl fmt::Display for Histogram {
    fn fmt(&self, out: &mut fmt::Formatter<'_>) -> fmt::Result {
        let total: usize = self.counts.values().sum();
        for (label, &count) in &self.counts {
            let share = count as u64 * 1_000 / total.max(1) as u64;
            writeln!(out, "  {label:<14} {count:>8}  {:>3}.{} %", share / 10, share % 10)?;
        }
        Ok(())
    }
}

/// The label of what the program prints for a script.
pub fn label_of(answer: &str) -> String {
    let last_but_ticks = answer.lines().rfind(|line| !line.starts_with("ticks"));
    let words: Vec<&str> = last_but_ticks.unwrap_or_default().split(' ').collect();
    match words[..] {
        ["refused", number, _] => format!("refused {number:>2}"),
        ["ending", "board", number, _] => format!("board {number}"),
        ["ending", name, _, _] => name.to_owned(),
        _ => "other".to_owned(),
    }
}
