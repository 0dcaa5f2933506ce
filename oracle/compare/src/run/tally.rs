//! How often each ending, opcode and sort of room occurred. One that never did
//! was not compared.

use std::fmt;

use oracle::measure::{Measure, OPCODES};
use oracle::run::{ending, ENDINGS};
use oracle::verdict::Answer;
use semantic_core_runtime::CoreTrap;

use super::laws::{ends_with, Known};

/// What else must occur.
const OTHERS: [&str; 10] = [
    "FrameRoom at the entry",
    "FrameRoom at a Call",
    "RegisterRoom at the entry",
    "RegisterRoom at a Call",
    "3 frames deep or more",
    "room just enough",
    "the fuel just enough",
    "document 01's room",
    "an admitted program",
    "an admitted one at its end",
];

#[derive(Debug)]
pub struct Tally {
    endings: [u64; ENDINGS.len()],
    others: [u64; OTHERS.len()],
    opcodes: [u64; OPCODES],
    asked: u64,
}

impl Default for Tally {
    fn default() -> Self {
        Self {
            endings: [0; ENDINGS.len()],
            others: [0; OTHERS.len()],
            opcodes: [0; OPCODES],
            asked: 0,
        }
    }
}

impl Tally {
    /// Counts one answer.
    pub fn add(&mut self, answer: &Answer) {
        self.asked += 1;
        if let Some(at) = ending(answer) {
            self.endings[at] += 1;
        }
        let later = usize::from(answer.words[0] > 0);
        match answer.number {
            6 => self.others[later] += 1,
            7 => self.others[2 + later] += 1,
            _ => {}
        }
    }

    /// Counts what a run with enough room did.
    pub fn add_measure(&mut self, measure: &Measure) {
        for (count, begun) in self.opcodes.iter_mut().zip(measure.begun) {
            *count += begun;
        }
        self.others[4] += u64::from(measure.deepest >= 3);
    }

    pub fn add_room_just_enough(&mut self, enough: bool) {
        self.others[5] += u64::from(enough);
    }

    pub fn add_fuel_just_enough(&mut self, enough: bool) {
        self.others[6] += u64::from(enough);
    }

    /// Counts where the laws of runs had something to say.
    pub fn add_known(&mut self, known: Known, answer: &Answer) {
        let ran = matches!(answer.number, 0 | 6 | 7);
        let at_its_end = known.admitted && ends_with(answer, CoreTrap::InvalidPc);
        self.others[7] += u64::from(ran && known.enough);
        self.others[8] += u64::from(ran && known.admitted);
        self.others[9] += u64::from(at_its_end);
    }

    /// How many questions were asked.
    pub fn asked(&self) -> u64 {
        self.asked
    }

    fn named(&self) -> impl Iterator<Item = (&'static str, u64)> + '_ {
        let endings = ENDINGS.into_iter().zip(self.endings);
        endings.chain(OTHERS.into_iter().zip(self.others))
    }

    /// The names of what never occurred.
    pub fn missing(&self) -> Vec<String> {
        let named = self.named().filter(|(_, count)| *count == 0);
        let opcodes = (0..OPCODES).filter(|opcode| self.opcodes[*opcode] == 0);
        let opcodes = opcodes.map(|opcode| format!("opcode {opcode}"));
        named
            .map(|(name, _)| name.to_string())
            .chain(opcodes)
            .collect()
    }
}

/// One line for each name, then the opcodes, eight on a line.
impl fmt::Display for Tally {
    fn fmt(&self, f: &mut fmt::Formatter<'_>) -> fmt::Result {
        for (name, count) in self.named() {
            writeln!(f, "  {name:<26} {count:>10}")?;
        }
        writeln!(f, "  opcodes begun, from 0 on:")?;
        for row in self.opcodes.chunks(8) {
            for count in row {
                write!(f, " {count:>9}")?;
            }
            writeln!(f)?;
        }
        Ok(())
    }
}

#[cfg(test)]
mod tests {
    use super::*;

    #[test]
    fn each_answer_is_counted_under_its_own_name() {
        let mut tally = Tally::default();
        tally.add(&Answer::new(0, &[0, 4, 7, 9]));
        tally.add(&Answer::new(0, &[6, 0, 0, 9]));
        tally.add(&Answer::new(6, &[0]));
        tally.add(&Answer::new(6, &[3]));
        tally.add(&Answer::new(7, &[3]));
        assert_eq!(tally.asked(), 5);
        let found: Vec<(&str, u64)> = tally.named().filter(|(_, count)| *count > 0).collect();
        let expected = [
            ("returned", 1),
            ("FuelExceeded", 1),
            ("FrameRoom", 2),
            ("RegisterRoom", 1),
            ("FrameRoom at the entry", 1),
            ("FrameRoom at a Call", 1),
            ("RegisterRoom at a Call", 1),
        ];
        assert_eq!(found, expected);
    }

    #[test]
    fn what_never_occurred_is_missing() {
        let tally = Tally::default();
        let missing = tally.missing();
        assert_eq!(missing.len(), ENDINGS.len() + OTHERS.len() + OPCODES);
        assert_eq!(missing[0], "returned");
        assert_eq!(missing.last().unwrap(), "opcode 55");
    }
}
