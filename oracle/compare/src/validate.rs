//! `compare validate`: admission by the Rust and by our engine, case by case.

use std::io::{self, Write};

use oracle::generate::Case;
use oracle::verdict::{of_image, Answer};
use oracle::worked::verdicts::{self, Worked};
use semantic_core_runtime::CoreAdmissionProfile;

use crate::lent::{LentImage, LentWords};
use crate::plan::Plan;
use crate::progress::Progress;
use crate::report;
use crate::shrink::shrink;
use crate::tally::Tally;

/// An engine to compare with: image, profile, room for the answer's words; it
/// gives the answer's number.
pub type Engine = fn(&mut [u8], CoreAdmissionProfile, &mut [u64; 5]) -> u64;

/// Compares generated cases, up to the first that differs. Says whether all
/// were equal, and if that is asked for, every answer occurred.
pub fn compare_generated(
    engine: Engine,
    plan: Plan,
    output: &mut impl Write,
    progress: &mut Progress<impl Write>,
) -> io::Result<bool> {
    let mut tally = Tally::default();
    progress.begin("validate", plan.count);
    for number in 0..plan.count {
        progress.done(number)?;
        let case = Case::new(plan.seed, number);
        let expected = of_image(&case.image, case.profile);
        if let Some(fault) = fault(engine, &case, number, &expected) {
            report_generated(output, plan.seed, number, &case, &fault)?;
            report_shrunk(output, engine, number, case)?;
            return Ok(false);
        }
        tally.add(&expected);
    }
    write!(output, "{tally}")?;
    writeln!(output, "compared {} programs: equal", tally.total())?;
    let missing = tally.missing();
    if !missing.is_empty() {
        writeln!(output, "never occurred: {}", missing.join(", "))?;
    }
    Ok(missing.is_empty() || !plan.complete)
}

/// The answer of a worked case is written out with it, and both sides must
/// give it.
pub fn compare_worked(engine: Engine, output: &mut impl Write) -> io::Result<bool> {
    let cases = verdicts::all();
    for (number, worked) in cases.iter().enumerate() {
        let Worked {
            about,
            case,
            expected,
        } = worked;
        let rust = of_image(&case.image, case.profile);
        let fault = if rust == *expected {
            fault(engine, case, number as u64, expected)
        } else {
            Some(differing("the Rust", expected, &rust))
        };
        if let Some(fault) = fault {
            writeln!(output, "worked case \"{about}\": {fault}")?;
            report::write_worked(output, &case.line())?;
            return Ok(false);
        }
    }
    writeln!(
        output,
        "compared {} worked cases of admission: equal",
        cases.len()
    )?;
    Ok(true)
}

/// What is wrong with the engine's answer to a case, if anything is.
fn fault(engine: Engine, case: &Case, number: u64, expected: &Answer) -> Option<String> {
    let mut image = LentImage::new(&case.image, number);
    let mut room = LentWords::new();
    let number = engine(image.image(), case.profile, room.words());
    let ours = Answer {
        number,
        words: *room.words(),
    };
    if ours != *expected {
        return Some(differing("ours", expected, &ours));
    }
    if !image.is_unchanged(&case.image) {
        return Some("the image, or memory around it, was changed".to_string());
    }
    if !room.is_unchanged() {
        return Some("memory around the answer was changed".to_string());
    }
    None
}

fn differing(whose: &str, expected: &Answer, found: &Answer) -> String {
    format!("differs\n  expected: {expected}\n  {whose}: {found}")
}

fn report_generated(
    output: &mut impl Write,
    seed: u64,
    number: u64,
    case: &Case,
    fault: &str,
) -> io::Result<()> {
    writeln!(output, "case {number} of seed {seed}: {fault}")?;
    let whole = format!("compare case {seed} {number}");
    report::write_case(output, &case.line(), &whole)?;
    output.flush()
}

/// A smaller case that differs too. Its image is lent at the same address, as
/// far as the number decides on that.
fn report_shrunk(
    output: &mut impl Write,
    engine: Engine,
    number: u64,
    case: Case,
) -> io::Result<()> {
    let fault_of = |case: &Case| {
        let expected = of_image(&case.image, case.profile);
        fault(engine, case, number, &expected)
    };
    let shrunk = shrink(case, |case| fault_of(case).is_some());
    let fault = fault_of(&shrunk.case).unwrap_or_default();
    writeln!(output, "{}: {fault}", shrunk.about())?;
    report::write_shrunk(output, &shrunk.case.line())
}

#[cfg(test)]
mod tests;
