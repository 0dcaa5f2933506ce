//! Makes a case that differs smaller, for as long as it still differs, so that
//! what is left shows little but the fault.

mod cases;
mod image;
mod numbers;
mod program;

use std::time::{Duration, Instant};

/// Shrinking ends after so many trials or so long a time.
const MOST_TRIALS: u64 = 20_000;
const LONGEST: Duration = Duration::from_secs(20);

/// What can be made smaller, edit by edit. No edit may lead back to what
/// another one came from, or shrinking would go round.
pub trait Shrink: Sized {
    type Edit;

    /// All edits that there are, those first that take away the most.
    fn edits(&self) -> Vec<Self::Edit>;

    /// What an edit makes of it; nothing where that is no change.
    fn edited(&self, edit: &Self::Edit) -> Option<Self>;
}

/// What shrinking came to.
pub struct Shrunk<T> {
    pub case: T,
    pub trials: u64,
    /// Whether no edit is left that keeps the difference.
    pub is_least: bool,
}

impl<T> Shrunk<T> {
    /// How it was found, for a reader.
    pub fn about(&self) -> String {
        let trials = self.trials;
        match self.is_least {
            true => format!("made smaller in {trials} trials"),
            false => format!("made smaller as far as {trials} trials went"),
        }
    }
}

/// Takes each edit that keeps the difference, sweep after sweep, up to one in
/// which there is none.
pub fn shrink<T: Shrink>(case: T, differs: impl FnMut(&T) -> bool) -> Shrunk<T> {
    within(MOST_TRIALS, LONGEST, case, differs)
}

fn within<T: Shrink>(
    most_trials: u64,
    longest: Duration,
    case: T,
    mut differs: impl FnMut(&T) -> bool,
) -> Shrunk<T> {
    let start = Instant::now();
    let mut shrunk = Shrunk {
        case,
        trials: 0,
        is_least: false,
    };
    while !shrunk.is_least {
        shrunk.is_least = true;
        let mut edits = shrunk.case.edits();
        let mut at = 0;
        while at < edits.len() {
            if shrunk.trials == most_trials || start.elapsed() > longest {
                shrunk.is_least = false;
                return shrunk;
            }
            let smaller = shrunk.case.edited(&edits[at]);
            shrunk.trials += u64::from(smaller.is_some());
            match smaller.filter(&mut differs) {
                // What follows is tried on the smaller one, from here on:
                // edits before this place did not help and seldom do now.
                Some(smaller) => {
                    shrunk.case = smaller;
                    shrunk.is_least = false;
                    edits = shrunk.case.edits();
                }
                None => at += 1,
            }
        }
    }
    shrunk
}

#[cfg(test)]
mod tests;
