//! How often each answer occurred. One that never did was not compared.

use std::fmt;

use oracle::verdict::{Answer, NAMES};

#[derive(Debug, Default)]
pub struct Tally {
    counts: [u64; NAMES.len()],
}

impl Tally {
    pub fn add(&mut self, answer: &Answer) {
        let place = NAMES
            .iter()
            .position(|(number, _)| *number == answer.number);
        if let Some(place) = place {
            self.counts[place] += 1;
        }
    }

    pub fn total(&self) -> u64 {
        self.counts.iter().sum()
    }

    /// The names of the answers that never occurred.
    pub fn missing(&self) -> Vec<&'static str> {
        let entries = NAMES.iter().zip(&self.counts);
        entries
            .filter(|(_, count)| **count == 0)
            .map(|((_, name), _)| *name)
            .collect()
    }
}

/// One line for each answer: number, name, how often.
impl fmt::Display for Tally {
    fn fmt(&self, f: &mut fmt::Formatter<'_>) -> fmt::Result {
        for ((number, name), count) in NAMES.iter().zip(&self.counts) {
            writeln!(f, "{number:>4} {name:<20} {count:>10}")?;
        }
        Ok(())
    }
}

#[cfg(test)]
mod tests {
    use super::*;

    #[test]
    fn each_answer_is_counted_under_its_own_number() {
        let mut tally = Tally::default();
        for number in [0, 20, 20] {
            tally.add(&Answer::new(number, &[]));
        }
        assert_eq!(tally.total(), 3);
        let table = tally.to_string();
        assert!(table.contains("   0 admitted                      1\n"));
        assert!(table.contains("  20 InvalidArgWindow              2\n"));
    }

    #[test]
    fn what_never_occurred_is_missing() {
        let mut tally = Tally::default();
        assert_eq!(tally.missing().len(), NAMES.len());
        for (number, _) in NAMES.iter().filter(|(number, _)| *number != 11) {
            tally.add(&Answer::new(*number, &[]));
        }
        assert_eq!(tally.missing(), ["EmptyProgram"]);
    }
}
