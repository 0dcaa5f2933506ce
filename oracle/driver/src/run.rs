//! A run by the Rust: the answer to a `run` line, and the one that an engine's
//! answer is compared with.

use semantic_core_exec::{CoreConfig, CoreExecutor, CoreProgram, CoreResultDigest, CoreStatus};

use crate::image;
use crate::reading::Limits;
use crate::text::hex;
use crate::verdict::Answer;
use crate::word::kind_and_payload;

/// Every way to answer when a run is asked for: it returned, one of the traps
/// in the order of their codes, or one of the refusals 1 to 7.
pub const ENDINGS: [&str; 18] = [
    "returned",
    "InvalidPc",
    "InvalidRegister",
    "TypeMismatch",
    "DivisionByZero",
    "IntegerOverflow",
    "FuelExceeded",
    "CallDepthExceeded",
    "InvalidFunction",
    "AssertFailed",
    "ExplicitTrap",
    "Short",
    "Form",
    "Layout",
    "FunctionTable",
    "Instruction",
    "FrameRoom",
    "RegisterRoom",
];

/// The answer's place among the endings, or nothing if it is none of them.
pub fn ending(answer: &Answer) -> Option<usize> {
    let at = match (answer.number, answer.words[0]) {
        (0, status @ 0..=10) => status,
        (refusal @ 1..=7, _) => 10 + refusal,
        _ => return None,
    };
    Some(at as usize)
}

/// The answer in words, for a reader.
pub fn describe(answer: &Answer) -> String {
    let name = ending(answer).map_or("no such answer", |at| ENDINGS[at]);
    let [first, second, third, fourth, fifth] = answer.words;
    let number = answer.number;
    format!("{number} ({name}), words {first} {second} {third} {fourth} {fifth}")
}

/// What is asked: how does a run of this image end under these limits?
#[derive(Debug, Clone, PartialEq, Eq, Hash)]
pub struct Case {
    pub image: Vec<u8>,
    pub limits: Limits,
}

impl Case {
    /// The line that asks `oracle answer` about this case.
    pub fn line(&self) -> String {
        line(&self.image, self.limits)
    }

    /// The image's fault, or else the Rust's answer.
    pub fn answer(&self) -> Answer {
        of_image(&self.image, self.limits)
    }
}

/// The line that asks `oracle answer` about a run.
pub fn line(image: &[u8], limits: Limits) -> String {
    let Limits {
        fuel,
        max_call_depth,
    } = limits;
    format!("run {fuel} {max_call_depth} {}", hex(image))
}

/// The answer for an image in bytes: its fault, or else the Rust's answer.
pub fn of_image(image: &[u8], limits: Limits) -> Answer {
    match image::read(image) {
        Ok(program) => of_program(&program, limits.fuel, limits.max_call_depth),
        Err(fault) => fault.into(),
    }
}

/// The Rust's answer: status, kind, payload, fuel used, digest.
pub fn of_program(program: &CoreProgram, fuel: u64, max_call_depth: u16) -> Answer {
    let mut config = CoreConfig::default();
    config.fuel = fuel;
    config.max_call_depth = max_call_depth;
    let result = CoreExecutor::new(config).execute_outcome(program);
    let status = match result.status {
        CoreStatus::Returned => 0,
        CoreStatus::Trapped(trap) => 1 + u64::from(trap.code()),
    };
    let (kind, payload) = kind_and_payload(result.return_value);
    let digest = CoreResultDigest::from_result(&result).0;
    let values = [status, kind, payload.into(), result.fuel_used, digest];
    Answer::new(0, &values)
}

/// `done STATUS KIND PAYLOAD FUEL DIGEST`: the digest's first, second, third
/// and fifth words, then the digest itself.
pub fn answer(program: &CoreProgram, fuel: u64, max_call_depth: u16) -> String {
    let [status, kind, payload, used, digest] = of_program(program, fuel, max_call_depth).words;
    format!("done {status} {kind} {payload} {used} {digest}")
}

#[cfg(test)]
mod tests {
    use super::*;
    use semantic_core_runtime::CoreTrap;

    #[test]
    fn endings_are_named_by_their_numbers() {
        let trapped = |status| Answer::new(0, &[status]);
        let name = |answer| ending(&answer).map(|at| ENDINGS[at]);
        assert_eq!(name(trapped(0)), Some("returned"));
        for status in 1..=10 {
            assert_eq!(name(trapped(status)), Some(ENDINGS[status as usize]));
        }
        assert_eq!(name(trapped(11)), None);
        assert_eq!(name(Answer::new(1, &[0])), Some("Short"));
        assert_eq!(name(Answer::new(7, &[3])), Some("RegisterRoom"));
        assert_eq!(name(Answer::new(8, &[0])), None);
    }

    #[test]
    fn the_names_of_traps_are_those_of_the_rust() {
        let named = |trap: CoreTrap| {
            let name = ENDINGS[1 + usize::from(trap.code())];
            assert_eq!(name, format!("{trap:?}"));
        };
        named(CoreTrap::InvalidPc);
        named(CoreTrap::InvalidRegister);
        named(CoreTrap::TypeMismatch);
        named(CoreTrap::DivisionByZero);
        named(CoreTrap::IntegerOverflow);
        named(CoreTrap::FuelExceeded);
        named(CoreTrap::CallDepthExceeded);
        named(CoreTrap::InvalidFunction);
        named(CoreTrap::AssertFailed);
        named(CoreTrap::ExplicitTrap);
    }

    #[test]
    fn an_answer_is_described_by_name_and_words() {
        let text = describe(&Answer::new(0, &[1, 0, 0, 5, 9]));
        assert_eq!(text, "0 (InvalidPc), words 1 0 0 5 9");
        let text = describe(&Answer::new(6, &[3]));
        assert_eq!(text, "6 (FrameRoom), words 3 0 0 0 0");
        let text = describe(&Answer::new(9, &[]));
        assert_eq!(text, "9 (no such answer), words 0 0 0 0 0");
    }
}
