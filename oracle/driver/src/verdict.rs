//! The Rust's verdict by document 01's numbers: the answer to a `validate`
//! line, and the one that an engine's answer is compared with.

use std::fmt;

use semantic_core_exec::{validate_program, CoreProgram, CoreValidationError};
use semantic_core_runtime::{CoreAdmissionProfile, CoreProfileError};

use crate::image::{self, Fault};

/// Every number that asking for admission may give, with its name. Document 01
/// has no number for an admitted program; 0 is its place here.
pub const NAMES: [(u64, &str); 17] = [
    (0, "admitted"),
    (1, "Short"),
    (2, "Form"),
    (3, "Layout"),
    (4, "FunctionTable"),
    (5, "Instruction"),
    (10, "Profile"),
    (11, "EmptyProgram"),
    (12, "InvalidEntry"),
    (13, "TooManyFunctions"),
    (14, "TooManyRegisters"),
    (15, "TooManyInstructions"),
    (16, "InvalidRegister"),
    (17, "InvalidJump"),
    (18, "InvalidCall"),
    (19, "MissingReturn"),
    (20, "InvalidArgWindow"),
];

/// What asking for admission or for a run gives: the number, and the answer's
/// values in document 01's order with zeros after them. It is shown as a
/// verdict; `run::describe` shows it as the end of a run.
#[derive(Debug, Clone, Copy, PartialEq, Eq)]
pub struct Answer {
    pub number: u64,
    pub words: [u64; 5],
}

impl Answer {
    /// Takes at most five values, and no answer has more.
    pub fn new(number: u64, values: &[u64]) -> Self {
        let mut words = [0; 5];
        words[..values.len()].copy_from_slice(values);
        Self { number, words }
    }

    /// The name, or nothing for a number that is not in the table.
    pub fn name(&self) -> Option<&'static str> {
        let entry = NAMES.iter().find(|(number, _)| *number == self.number);
        entry.map(|(_, name)| *name)
    }
}

impl From<Fault> for Answer {
    fn from(fault: Fault) -> Self {
        Self::new(fault.number().into(), &[fault.answer().into()])
    }
}

impl fmt::Display for Answer {
    fn fmt(&self, f: &mut fmt::Formatter<'_>) -> fmt::Result {
        let name = self.name().unwrap_or("no such number");
        write!(f, "{} ({name}), words", self.number)?;
        self.words.iter().try_for_each(|word| write!(f, " {word}"))
    }
}

/// The answer for an image in bytes: its fault, or else the Rust's verdict.
pub fn of_image(image: &[u8], profile: CoreAdmissionProfile) -> Answer {
    match image::read(image) {
        Ok(program) => of_program(&program, profile),
        Err(fault) => fault.into(),
    }
}

fn of_program(program: &CoreProgram, profile: CoreAdmissionProfile) -> Answer {
    match validate_program(program, profile) {
        Ok(()) => Answer::new(0, &[]),
        Err(error) => {
            let (number, fields) = numbers(&error);
            Answer::new(number.into(), &fields)
        }
    }
}

/// `admitted`, or `refused NUMBER FIELD..`.
pub fn answer(program: &CoreProgram, profile: CoreAdmissionProfile) -> String {
    match validate_program(program, profile) {
        Ok(()) => "admitted".to_string(),
        Err(error) => {
            let (number, fields) = numbers(&error);
            let mut line = format!("refused {number}");
            for field in fields {
                line.push_str(&format!(" {field}"));
            }
            line
        }
    }
}

/// Document 01's number of a verdict and its fields in declaration order.
pub fn numbers(error: &CoreValidationError) -> (u32, Vec<u64>) {
    use CoreValidationError as E;
    match error {
        E::Profile(fault) => (10, profile_fields(fault)),
        E::EmptyProgram => (11, vec![]),
        E::InvalidEntry(entry) => (12, vec![entry.0.into()]),
        E::TooManyFunctions { count, max } => (13, vec![*count as u64, (*max).into()]),
        E::TooManyRegisters {
            function,
            regs,
            max,
        } => (14, vec![function.0.into(), (*regs).into(), (*max).into()]),
        E::TooManyInstructions {
            function,
            instrs,
            max,
        } => (15, vec![function.0.into(), *instrs as u64, (*max).into()]),
        E::InvalidRegister { function, reg } => (16, vec![function.0.into(), reg.0.into()]),
        E::InvalidJump { function, target } => (17, vec![function.0.into(), (*target).into()]),
        E::InvalidCall { function, target } => (18, vec![function.0.into(), target.0.into()]),
        E::MissingReturn { function } => (19, vec![function.0.into()]),
        E::InvalidArgWindow {
            function,
            base,
            count,
        } => (20, vec![function.0.into(), base.0.into(), (*count).into()]),
    }
}

/// 0 for a zero limit or 1 for an unbounded one, then the field's number.
fn profile_fields(fault: &CoreProfileError) -> Vec<u64> {
    match fault {
        CoreProfileError::ZeroLimit(name) => vec![0, profile_field(name)],
        CoreProfileError::UnboundedLimit(name) => vec![1, profile_field(name)],
    }
}

fn profile_field(name: &str) -> u64 {
    match name {
        "max_registers" => 1,
        "max_functions" => 2,
        "max_call_depth" => 3,
        "max_instrs_per_function" => 4,
        "max_fuel" => 5,
        // The Rust names no other field; a made-up number must not pass.
        other => unreachable!("the profile has no field {other}"),
    }
}

#[cfg(test)]
mod tests {
    use super::*;
    use crate::sample::{plain, ret, single};

    #[test]
    fn an_image_is_answered_by_its_fault_or_else_by_the_verdict() {
        let of = |image: &[u8]| of_image(image, CoreAdmissionProfile::safe());
        assert_eq!(of(&single(1, vec![ret(0)])), Answer::new(0, &[]));
        assert_eq!(of(&[]), Answer::new(1, &[0]));
        assert_eq!(
            of(&single(1, vec![ret(0), plain(56)])),
            Answer::new(5, &[1])
        );
        let answer = of(&single(257, vec![ret(0)]));
        assert_eq!(answer.words, [0, 257, 256, 0, 0]);
        assert_eq!(
            answer.to_string(),
            "14 (TooManyRegisters), words 0 257 256 0 0"
        );
    }

    #[test]
    fn names_go_with_the_numbers_of_document_01() {
        let numbers: Vec<u64> = NAMES.iter().map(|(number, _)| *number).collect();
        let expected: Vec<u64> = (0..=5).chain(10..=20).collect();
        assert_eq!(numbers, expected);
        assert_eq!(Answer::new(21, &[]).name(), None);
    }
}
