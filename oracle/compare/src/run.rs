//! `compare run`: runs by the Rust, by the reading of document 01 and by our
//! engine, case by case, with what each run leaves in lent memory.

mod ask;
mod case;
mod faults;
mod laws;
mod tally;
mod worked;

pub use ask::{Asked, Question};
pub use worked::compare_worked;

use std::io::{self, Write};

use oracle::measure::Scratch;

use crate::plan::Plan;
use crate::progress::Progress;
use crate::report;
use crate::shrink::shrink;
use case::Case;
use tally::Tally;

/// An engine to compare with: what runs an image and gives the answer's number,
/// and what gives the digest of status, kind, payload and fuel used.
#[derive(Clone, Copy)]
pub struct Engine {
    pub execute: fn(Asked) -> u64,
    pub digest: fn([u64; 4]) -> u64,
}

/// Prints all that is asked in one generated case.
pub fn print_case(seed: u64, number: u64, output: &mut impl Write) -> io::Result<()> {
    let case = Case::new(seed, number, &mut Scratch::default());
    for (_, ask) in case.asks(number) {
        writeln!(output, "{}", ask.settings())?;
        writeln!(output, "{}", ask.line())?;
    }
    Ok(())
}

/// Compares generated cases, up to the first that differs. Says whether all
/// were equal, and if that is asked for, everything occurred.
pub fn compare_generated(
    engine: Engine,
    plan: Plan,
    output: &mut impl Write,
    progress: &mut Progress<impl Write>,
) -> io::Result<bool> {
    let Plan { seed, count, .. } = plan;
    let mut tally = Tally::default();
    let mut scratch = Scratch::default();
    progress.begin("run", count);
    for number in 0..count {
        progress.done(number)?;
        let words = faults::any_words(seed, number);
        if let Some(fault) = faults::any_digest_fault(engine, words) {
            writeln!(output, "case {number} of seed {seed}: {fault}")?;
            report_shrunk_words(output, engine, words)?;
            return Ok(false);
        }
        let case = Case::new(seed, number, &mut scratch);
        if let Some((fault, question)) = case_fault(engine, &case, number, &mut tally) {
            writeln!(output, "case {number} of seed {seed}: {fault}")?;
            report_question(output, seed, number, &question)?;
            report_shrunk(output, engine, question, &mut scratch)?;
            return Ok(false);
        }
    }
    write!(output, "{tally}")?;
    let asked = tally.asked();
    writeln!(output, "compared {count} programs in {asked} runs: equal")?;
    let missing = tally.missing();
    if !missing.is_empty() {
        writeln!(output, "never occurred: {}", missing.join(", "))?;
    }
    Ok(missing.is_empty() || !plan.complete)
}

/// What is wrong with the first answer of a case that is, and with what it was
/// asked for. Everything else is counted.
fn case_fault(
    engine: Engine,
    case: &Case,
    number: u64,
    tally: &mut Tally,
) -> Option<(String, Question)> {
    for setting in &case.settings {
        tally.add_measure(&setting.measure);
        tally.add_fuel_just_enough(setting.fuel_is_just_enough());
    }
    for (setting, ask) in case.asks(number) {
        match faults::answered(engine, case, setting, &ask) {
            Err(fault) => return Some((fault, ask.question())),
            Ok(answer) => {
                tally.add(&answer);
                tally.add_known(case.known(setting, &ask), &answer);
                tally.add_room_just_enough(setting.is_just_enough(ask.room));
            }
        }
    }
    None
}

fn report_question(
    output: &mut impl Write,
    seed: u64,
    number: u64,
    question: &Question,
) -> io::Result<()> {
    let ask = question.ask();
    writeln!(output, "{}", ask.settings())?;
    let whole = format!("compare run-case {seed} {number}");
    report::write_case(output, &ask.line(), &whole)?;
    output.flush()
}

/// A smaller question with an answer that differs too.
fn report_shrunk(
    output: &mut impl Write,
    engine: Engine,
    question: Question,
    scratch: &mut Scratch,
) -> io::Result<()> {
    let shrunk = shrink(question, |question| {
        faults::question_fault(engine, question, scratch).is_some()
    });
    let fault = faults::question_fault(engine, &shrunk.case, scratch);
    writeln!(output, "{}: {}", shrunk.about(), fault.unwrap_or_default())?;
    let ask = shrunk.case.ask();
    writeln!(output, "{}", ask.settings())?;
    report::write_shrunk(output, &ask.line())
}

fn report_shrunk_words(output: &mut impl Write, engine: Engine, words: [u64; 4]) -> io::Result<()> {
    output.flush()?;
    let shrunk = shrink(words, |words| {
        faults::any_digest_fault(engine, *words).is_some()
    });
    let fault = faults::any_digest_fault(engine, shrunk.case);
    writeln!(output, "{}: {}", shrunk.about(), fault.unwrap_or_default())
}

#[cfg(test)]
mod tests;
