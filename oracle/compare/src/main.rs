//! Compares our engine, linked from its archive, with the original Rust.
//!
//! `compare validate SEED COUNT` compares admission, `compare run` runs and
//! `compare identify` event identifiers; `compare all` all three. `compare case
//! SEED NUMBER` and `compare run-case` print one of the cases as lines for
//! `oracle answer`.

mod ffi;
mod identify;
mod lent;
mod plan;
mod progress;
mod report;
mod run;
mod shrink;
mod tally;
mod validate;

use std::env;
use std::io::{self, BufWriter, Write};
use std::process::ExitCode;

use oracle::generate::Case;
use oracle::text::decimal;
use plan::Plan;
use progress::Progress;

const USAGE: &str = "usage: compare all|validate|run|identify SEED COUNT [--complete] \
                     | case|run-case SEED NUMBER";

fn main() -> ExitCode {
    let arguments: Vec<String> = env::args().skip(1).collect();
    let Some(command) = Command::read(&arguments) else {
        eprintln!("{USAGE}");
        return ExitCode::from(2);
    };
    match command.run() {
        Ok(true) => ExitCode::SUCCESS,
        Ok(false) => ExitCode::from(1),
        Err(error) => {
            eprintln!("compare: {error}");
            ExitCode::from(2)
        }
    }
}

enum Command {
    All(Plan),
    Validate(Plan),
    Run(Plan),
    Identify(Plan),
    Case { seed: u64, number: u64 },
    RunCase { seed: u64, number: u64 },
}

/// Our engine, as `compare run` asks it.
const ENGINE: run::Engine = run::Engine {
    execute: ffi::execute,
    digest: ffi::digest,
};

impl Command {
    fn read(arguments: &[String]) -> Option<Self> {
        let (complete, name, seed, number) = match arguments {
            [name, seed, number] => (false, name, seed, number),
            [name, seed, number, option] if option == "--complete" => (true, name, seed, number),
            _ => return None,
        };
        let seed = decimal(seed.as_bytes())?;
        let number = decimal(number.as_bytes())?;
        let plan = Plan {
            seed,
            count: number,
            complete,
        };
        match name.as_str() {
            "all" => Some(Self::All(plan)),
            "validate" => Some(Self::Validate(plan)),
            "run" => Some(Self::Run(plan)),
            "identify" => Some(Self::Identify(plan)),
            "case" if !complete => Some(Self::Case { seed, number }),
            "run-case" if !complete => Some(Self::RunCase { seed, number }),
            _ => None,
        }
    }

    /// Says whether all is well.
    fn run(self) -> io::Result<bool> {
        let mut output = BufWriter::new(io::stdout().lock());
        let good = match self {
            Self::All(plan) => all(plan, &mut output)?,
            Self::Validate(plan) => validate(plan, &mut output)?,
            Self::Run(plan) => run(plan, &mut output)?,
            Self::Identify(plan) => identify(plan, &mut output)?,
            Self::Case { seed, number } => {
                // What these two print on standard output is for `oracle answer`.
                eprintln!("seed {seed}");
                writeln!(output, "{}", Case::new(seed, number).line())?;
                true
            }
            Self::RunCase { seed, number } => {
                eprintln!("seed {seed}");
                run::print_case(seed, number, &mut output)?;
                true
            }
        };
        output.flush()?;
        Ok(good)
    }
}

/// The worked cases of all three, then the generated ones. Each part is
/// compared, whatever the others came to.
fn all(plan: Plan, output: &mut impl Write) -> io::Result<bool> {
    begin(plan, output)?;
    let mut progress = Progress::new(io::stderr());
    let mut good = validate::compare_worked(ffi::validate, output)?;
    good &= run::compare_worked(ENGINE, output)?;
    good &= identify::compare_worked(ffi::event_id, output)?;
    output.flush()?;
    good &= validate::compare_generated(ffi::validate, plan, output, &mut progress)?;
    output.flush()?;
    good &= run::compare_generated(ENGINE, plan, output, &mut progress)?;
    output.flush()?;
    good &= identify::compare_generated(ffi::event_id, plan, output, &mut progress)?;
    Ok(good)
}

fn validate(plan: Plan, output: &mut impl Write) -> io::Result<bool> {
    begin(plan, output)?;
    let mut progress = Progress::new(io::stderr());
    Ok(validate::compare_worked(ffi::validate, output)?
        && validate::compare_generated(ffi::validate, plan, output, &mut progress)?)
}

fn run(plan: Plan, output: &mut impl Write) -> io::Result<bool> {
    begin(plan, output)?;
    let mut progress = Progress::new(io::stderr());
    Ok(run::compare_worked(ENGINE, output)?
        && run::compare_generated(ENGINE, plan, output, &mut progress)?)
}

fn identify(plan: Plan, output: &mut impl Write) -> io::Result<bool> {
    begin(plan, output)?;
    let mut progress = Progress::new(io::stderr());
    Ok(identify::compare_worked(ffi::event_id, output)?
        && identify::compare_generated(ffi::event_id, plan, output, &mut progress)?)
}

/// The seed comes first, so that whatever is printed can be made again, even
/// by a command that did not come to its end.
fn begin(plan: Plan, output: &mut impl Write) -> io::Result<()> {
    writeln!(output, "seed {}", plan.seed)?;
    output.flush()
}
