//! Times two pieces of work in turn, so that whatever slows the machine down
//! slows both.

use std::time::{Duration, Instant};

/// Odd, so that one round is the median.
pub const ROUNDS: usize = 51;
const WARM_UP: usize = 3;

#[derive(Debug, Clone, Copy, PartialEq, Eq)]
pub struct Times {
    pub median: Duration,
    pub least: Duration,
}

impl Times {
    /// Nothing for no times at all.
    fn of(mut all: Vec<Duration>) -> Option<Self> {
        all.sort_unstable();
        Some(Self {
            median: *all.get(all.len() / 2)?,
            least: *all.first()?,
        })
    }
}

fn time(work: &mut dyn FnMut()) -> Duration {
    let start = Instant::now();
    work();
    start.elapsed()
}

/// The times of both, after a warm-up. Who goes first changes from round to
/// round, so that neither always follows the other.
pub fn in_turn(first: &mut dyn FnMut(), second: &mut dyn FnMut()) -> Option<(Times, Times)> {
    for _ in 0..WARM_UP {
        first();
        second();
    }
    let (mut firsts, mut seconds) = (Vec::new(), Vec::new());
    for round in 0..ROUNDS {
        if round % 2 == 0 {
            firsts.push(time(first));
            seconds.push(time(second));
        } else {
            seconds.push(time(second));
            firsts.push(time(first));
        }
    }
    Some((Times::of(firsts)?, Times::of(seconds)?))
}

#[cfg(test)]
mod tests {
    use super::*;

    #[test]
    fn the_median_is_the_middle_one_and_the_least_the_first() {
        let times = [5, 1, 9, 3, 7].map(Duration::from_millis);
        let expected = Times {
            median: Duration::from_millis(5),
            least: Duration::from_millis(1),
        };
        assert_eq!(Times::of(times.to_vec()), Some(expected));
        assert_eq!(Times::of(vec![]), None);
    }

    #[test]
    fn both_run_equally_often() {
        let (mut ours, mut theirs) = (0, 0);
        let times = in_turn(&mut || ours += 1, &mut || theirs += 1);
        assert!(times.is_some());
        assert_eq!((ours, theirs), (WARM_UP + ROUNDS, WARM_UP + ROUNDS));
    }
}
