//! The worked runs, whose outcomes are written out with them.

use std::io::{self, Write};

use oracle::image;
use oracle::run::of_program;
use oracle::worked::runs::{all, Worked, DIGESTS};

use super::ask::{differing, Ask, Outcome};
use super::faults::{digest_fault, engine_fault};
use super::Engine;
use crate::report;

/// All three sides must give the outcome of each worked case.
pub fn compare_worked(engine: Engine, output: &mut impl Write) -> io::Result<bool> {
    for (words, expected) in DIGESTS {
        if let Some(fault) = digest_fault(engine, words, expected) {
            writeln!(output, "worked digest: {fault}")?;
            return Ok(false);
        }
    }
    let cases = all();
    for (salt, worked) in (0..).zip(&cases) {
        let ask = ask(worked, salt);
        if let Some(fault) = fault(engine, worked, &ask) {
            writeln!(output, "worked case \"{}\": {fault}", worked.about)?;
            writeln!(output, "{}", ask.settings())?;
            report::write_worked(output, &ask.line())?;
            return Ok(false);
        }
    }
    let (digests, cases) = (DIGESTS.len(), cases.len());
    writeln!(
        output,
        "compared {digests} worked digests and {cases} worked cases of runs: equal"
    )?;
    Ok(true)
}

fn ask(worked: &Worked, salt: u64) -> Ask<'_> {
    Ask {
        image: &worked.image,
        limits: worked.limits,
        room: worked.room,
        salt,
    }
}

fn outcome(worked: &Worked, ask: &Ask) -> Outcome {
    let mut outcome = ask.outcome(worked.answer);
    let Worked {
        frames, registers, ..
    } = worked;
    outcome.frames.lent()[..frames.len()].copy_from_slice(frames);
    outcome.registers.lent()[..registers.len()].copy_from_slice(registers);
    outcome
}

fn fault(engine: Engine, worked: &Worked, ask: &Ask) -> Option<String> {
    let expected = outcome(worked, ask);
    // The Rust has an answer for what is an image and is lent enough.
    let program = image::read(ask.image).ok();
    if let (Some(program), 0) = (program, expected.answer.number) {
        let rust = of_program(&program, ask.limits.fuel, ask.limits.max_call_depth);
        if rust != expected.answer {
            return Some(differing("the Rust", &expected.answer, &rust));
        }
    }
    let reading = expected.difference("the reading", &ask.by_reading());
    reading.or_else(|| engine_fault(engine, ask, &expected))
}
