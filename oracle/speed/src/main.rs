//! The speed of our engine, linked from its archive, beside the original Rust:
//! the same programs in one process, and the ratio of the times.
//!
//! `speed [--at-most COUNTING CALLS MIXED]`; exit code 0, 1 if answers differ or
//! a ratio is above its bound, 2 for wrong arguments.

mod ffi;
mod sides;
mod timing;
mod workloads;

use std::env;
use std::process::ExitCode;
use std::time::Duration;

use sides::{answer_of, Original, Ours};
use timing::Times;
use workloads::Workload;

fn main() -> ExitCode {
    let arguments: Vec<String> = env::args().skip(1).collect();
    let Some(bounds) = bounds(&arguments) else {
        eprintln!("usage: speed [--at-most COUNTING CALLS MIXED]");
        return ExitCode::from(2);
    };
    println!(
        "medians of {} rounds in ms, the least in brackets; a ratio is our median by the Rust's",
        timing::ROUNDS
    );
    let mut good = true;
    for (workload, bound) in workloads::all().iter().zip(bounds) {
        match measure(workload) {
            Ok(measured) => good &= measured.report(workload.name, bound),
            Err(why) => {
                println!("{}: {why}", workload.name);
                good = false;
            }
        }
    }
    ExitCode::from(u8::from(!good))
}

/// The highest ratio allowed of each workload; nothing if the arguments are wrong.
fn bounds(arguments: &[String]) -> Option<[f64; 3]> {
    match arguments {
        [] => Some([f64::INFINITY; 3]),
        [option, counting, calls, mixed] if option == "--at-most" => {
            Some([bound(counting)?, bound(calls)?, bound(mixed)?])
        }
        _ => None,
    }
}

fn bound(text: &str) -> Option<f64> {
    let bound: f64 = text.parse().ok()?;
    (bound.is_finite() && bound > 0.0).then_some(bound)
}

struct Measured {
    steps: u64,
    ours: Times,
    original: Times,
}

/// Times a workload, once both sides have given the same answer.
fn measure(workload: &Workload) -> Result<Measured, String> {
    let mut ours = Ours::new(&workload.program);
    let original = Original::new(&workload.program).ok_or("its image is none")?;
    let result = original.run();
    let (expected, got) = (answer_of(&result), ours.run());
    if got != expected {
        return Err(format!("the Rust answers {expected:?}, ours {got:?}"));
    }
    let mut run_ours = || {
        ours.run();
    };
    let mut run_original = || {
        original.run();
    };
    let (ours, original) =
        timing::in_turn(&mut run_ours, &mut run_original).ok_or("nothing was timed")?;
    Ok(Measured {
        steps: result.fuel_used,
        ours,
        original,
    })
}

impl Measured {
    fn ratio(&self) -> f64 {
        self.ours.median.as_secs_f64() / self.original.median.as_secs_f64()
    }

    /// Prints the line of a workload and says whether its bound is kept.
    fn report(&self, name: &str, bound: f64) -> bool {
        let ratio = self.ratio();
        println!(
            "{name}: {} steps, ours {}, the Rust {}, ratio {ratio:.2}",
            self.steps,
            in_ms(self.ours),
            in_ms(self.original)
        );
        let kept = ratio <= bound;
        if !kept {
            println!("{name}: the ratio is above {bound:.2}");
        }
        kept
    }
}

fn in_ms(times: Times) -> String {
    let ms = |time: Duration| 1e3 * time.as_secs_f64();
    format!("{:.2} ({:.2})", ms(times.median), ms(times.least))
}

#[cfg(test)]
mod tests {
    use super::*;

    fn given(line: &str) -> Option<[f64; 3]> {
        let arguments: Vec<String> = line.split_whitespace().map(String::from).collect();
        bounds(&arguments)
    }

    #[test]
    fn bounds_are_three_numbers_or_none() {
        assert_eq!(given(""), Some([f64::INFINITY; 3]));
        assert_eq!(given("--at-most 2 1 1.5"), Some([2.0, 1.0, 1.5]));
    }

    #[test]
    fn other_arguments_are_wrong() {
        for line in ["2 1 1", "--at-most", "--at-most 2 1", "--at-most 2 1 1 1"] {
            assert_eq!(given(line), None, "{line}");
        }
        for line in ["--at-most 2 x 1", "--at-most 0 1 1", "--at-most 2 NaN 1"] {
            assert_eq!(given(line), None, "{line}");
        }
    }

    #[test]
    fn a_bound_is_kept_up_to_itself() {
        let times = |ms| Times {
            median: Duration::from_millis(ms),
            least: Duration::from_millis(ms),
        };
        let measured = Measured {
            steps: 1,
            ours: times(3),
            original: times(2),
        };
        assert!(measured.report("test", 1.5));
        assert!(!measured.report("test", 1.49));
    }
}
