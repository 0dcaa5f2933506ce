//! The fixed list: lines for `oracle answer`, always the same ones. It stands
//! with the Rust's answers beside a program that gives our engine's.

mod coverage;
mod no_cases;
pub mod operations;
mod runs;
mod verdicts;

use std::collections::HashSet;
use std::io::{self, BufWriter, Write};

use crate::{generate, operate, run};

/// Images have at most so many bytes, and a run at most so deep a limit and so
/// many register words by document 01's rule of enough room. So a program with
/// little memory can answer all of them.
pub const MOST_BYTES: usize = 2_000;
pub const MOST_DEPTH: u16 = 64;
pub const MOST_WORDS: usize = 16_384;

/// The lines by their forms, in the list's order.
pub struct List {
    pub operations: Vec<operate::Case>,
    pub verdicts: Vec<generate::Case>,
    pub runs: Vec<run::Case>,
    pub no_cases: Vec<String>,
}

impl List {
    pub fn new() -> Self {
        Self {
            operations: operations::all(),
            verdicts: verdicts::all(),
            runs: runs::all(),
            no_cases: no_cases::all(),
        }
    }

    fn lines(&self) -> impl Iterator<Item = String> + '_ {
        let operations = self.operations.iter().map(operate::Case::line);
        let verdicts = self.verdicts.iter().map(generate::Case::line);
        let runs = self.runs.iter().map(run::Case::line);
        let no_cases = self.no_cases.iter().cloned();
        operations.chain(verdicts).chain(runs).chain(no_cases)
    }

    /// How many lines of each form there are. Who answers the list counts the
    /// answers by these.
    fn counts(&self) -> String {
        format!(
            "operate: {}\nvalidate: {}\nrun: {}\nno case: {}\n",
            self.operations.len(),
            self.verdicts.len(),
            self.runs.len(),
            self.no_cases.len()
        )
    }
}

impl Default for List {
    fn default() -> Self {
        Self::new()
    }
}

/// Writes the list, and to `notes` how many lines of each form it has. Says
/// whether it has all that it must have.
pub fn write(output: impl Write, mut notes: impl Write) -> io::Result<bool> {
    let list = List::new();
    let mut output = BufWriter::new(output);
    for line in list.lines() {
        writeln!(output, "{line}")?;
    }
    output.flush()?;
    write!(notes, "{}", list.counts())?;
    let missing = coverage::missing(&list);
    for name in &missing {
        writeln!(notes, "the list has no {name}")?;
    }
    Ok(missing.is_empty())
}

/// Keeps the first of cases that ask for the same.
struct Distinct<T> {
    cases: Vec<T>,
    lines: HashSet<String>,
}

impl<T> Distinct<T> {
    fn new() -> Self {
        Self {
            cases: Vec::new(),
            lines: HashSet::new(),
        }
    }

    fn add(&mut self, case: T, line: String) {
        if self.lines.insert(line) {
            self.cases.push(case);
        }
    }
}

#[cfg(test)]
mod tests;
