//! What can be made smaller about the cases of each command.

use oracle::generate;
use oracle::measure::Room;
use oracle::reading::Limits;
use semantic_core_runtime::CoreAdmissionProfile;

use super::numbers::smaller;
use super::{image, Shrink};
use crate::identify;
use crate::run::Question;

const SAFE: CoreAdmissionProfile = CoreAdmissionProfile::safe();

/// A number among others takes another value.
pub struct Number {
    place: usize,
    value: u64,
}

/// Every smaller value of every number.
fn of_numbers(numbers: &[u64]) -> Vec<Number> {
    let numbers = numbers.iter().enumerate();
    let values = |(place, number): (usize, &u64)| {
        let values = smaller(*number).into_iter();
        values.map(move |value| Number { place, value })
    };
    numbers.flat_map(values).collect()
}

fn with<const N: usize>(mut numbers: [u64; N], edit: &Number) -> [u64; N] {
    numbers[edit.place] = edit.value;
    numbers
}

/// The words to take a digest of.
impl Shrink for [u64; 4] {
    type Edit = Number;

    fn edits(&self) -> Vec<Number> {
        of_numbers(self)
    }

    fn edited(&self, edit: &Number) -> Option<Self> {
        Some(with(*self, edit))
    }
}

impl Shrink for identify::Case {
    type Edit = Number;

    fn edits(&self) -> Vec<Number> {
        of_numbers(&[self.length as u64, self.lesson.into(), self.digest])
    }

    fn edited(&self, edit: &Number) -> Option<Self> {
        let numbers = [self.length as u64, self.lesson.into(), self.digest];
        let [length, lesson, digest] = with(numbers, edit);
        Some(Self {
            lesson: lesson as u32,
            digest,
            length: length as usize,
            ..*self
        })
    }
}

pub enum Verdict {
    Safe,
    Limit(Number),
    Image(image::Edit),
}

fn limits(profile: CoreAdmissionProfile) -> [u64; 5] {
    [
        profile.max_registers.into(),
        profile.max_functions.into(),
        profile.max_call_depth.into(),
        profile.max_instrs_per_function.into(),
        profile.max_fuel,
    ]
}

/// The limits that people know are the simplest; where those do not do, small
/// ones are.
impl Shrink for generate::Case {
    type Edit = Verdict;

    fn edits(&self) -> Vec<Verdict> {
        let mut edits = Vec::new();
        if self.profile != SAFE {
            edits.push(Verdict::Safe);
        }
        edits.extend(image::edits(&self.image).into_iter().map(Verdict::Image));
        if self.profile != SAFE {
            let limits = of_numbers(&limits(self.profile)).into_iter();
            edits.extend(limits.map(Verdict::Limit));
        }
        edits
    }

    fn edited(&self, edit: &Verdict) -> Option<Self> {
        let mut copy = self.clone();
        match edit {
            Verdict::Safe => copy.profile = SAFE,
            Verdict::Limit(number) => {
                let [registers, functions, depth, instrs, fuel] =
                    with(limits(self.profile), number);
                copy.profile = CoreAdmissionProfile {
                    max_registers: registers as u16,
                    max_functions: functions as u16,
                    max_call_depth: depth as u16,
                    max_instrs_per_function: instrs as u32,
                    max_fuel: fuel,
                };
            }
            Verdict::Image(edit) => copy.image = image::edited(&self.image, edit)?,
        }
        Some(copy)
    }
}

pub enum Run {
    Number(Number),
    Image(image::Edit),
}

impl Question {
    fn numbers(&self) -> [u64; 4] {
        [
            self.limits.fuel,
            self.limits.max_call_depth.into(),
            self.room.frames as u64,
            self.room.registers as u64,
        ]
    }
}

/// Fuel first: with less of it the trials take less time.
impl Shrink for Question {
    type Edit = Run;

    fn edits(&self) -> Vec<Run> {
        let numbers = of_numbers(&self.numbers()).into_iter();
        let edits = image::edits(&self.image).into_iter();
        numbers
            .map(Run::Number)
            .chain(edits.map(Run::Image))
            .collect()
    }

    fn edited(&self, edit: &Run) -> Option<Self> {
        let mut copy = self.clone();
        match edit {
            Run::Number(number) => {
                let [fuel, depth, frames, registers] = with(self.numbers(), number);
                copy.limits = Limits {
                    fuel,
                    max_call_depth: depth as u16,
                };
                copy.room = Room {
                    frames: frames as usize,
                    registers: registers as usize,
                };
            }
            Run::Image(edit) => copy.image = image::edited(&self.image, edit)?,
        }
        Some(copy)
    }
}
