//! Random programs with limits to admit them under: the cases that an engine
//! is compared with the Rust on.
//!
//! A case is made in steps that know nothing of each other: a program that is
//! in order (`typed`), grown to a size at a limit (`sizes`), operands put out
//! of place (`misplace`), limits (`limits`), the image in bytes and faults in
//! those (`damage`). Most cases go through few of them, so that no fault hides
//! the later ones.

mod damage;
mod limits;
pub use limits::BOUNDS;
mod misplace;
mod sizes;
mod typed;

use semantic_core_runtime::CoreAdmissionProfile;

use crate::program::Program;
use crate::random::SplitMix64;
use crate::text::hex;

/// What an engine is asked: may this image run under these limits?
#[derive(Debug, Clone, PartialEq, Eq)]
pub struct Case {
    pub profile: CoreAdmissionProfile,
    pub image: Vec<u8>,
}

impl Case {
    /// The case of this number. Seed and number are all it hangs on.
    pub fn new(seed: u64, number: u64) -> Self {
        let mut random = SplitMix64::for_case(seed, number);
        let mut program = typed::program(&mut random);
        let limits = sizes::grow(&mut random, number, &mut program);
        misplace::some(&mut random, &mut program);
        let profile = limits.unwrap_or_else(|| limits::profile(&mut random, &program));
        let mut image = program.image();
        damage::some(&mut random, &mut image);
        Self { profile, image }
    }

    /// The line that asks `oracle answer` about this case.
    pub fn line(&self) -> String {
        let CoreAdmissionProfile {
            max_registers,
            max_functions,
            max_call_depth,
            max_instrs_per_function,
            max_fuel,
        } = self.profile;
        format!(
            "validate {max_registers} {max_functions} {max_call_depth} \
             {max_instrs_per_function} {max_fuel} {}",
            hex(&self.image)
        )
    }
}

/// A program to run. Most are in order. One in six has an operand of any type,
/// one in four a Call out of place if it has a Call, and some of a quarter have
/// other operands out of place: a run asks for no admission, and must end as
/// the Rust's does all the same.
pub fn program(seed: u64, number: u64) -> Program {
    let mut random = SplitMix64::for_case(seed, number);
    let mut program = typed::program(&mut random);
    uneven_fx(&mut random, &mut program);
    if random.once_in(6) {
        misplace::any_type(&mut random, &mut program);
    }
    if random.once_in(4) {
        misplace::any_call(&mut random, &mut program);
    }
    if random.once_in(4) {
        misplace::some(&mut random, &mut program);
    }
    if random.once_in(24) {
        misplace::past_the_end(&mut random, &mut program);
    }
    program
}

/// One image to run in so many is one of the admission's cases: a quarter of
/// them has faults, half has operands out of place, and some have as many
/// registers or functions as there can be. At this place none is large.
const ADMISSION_EVERY: u64 = 8;
const ADMISSION_AT: u64 = 2;

/// An image to run: a program's, but for one in eight.
pub fn image(seed: u64, number: u64) -> Vec<u8> {
    if number % ADMISSION_EVERY == ADMISSION_AT {
        Case::new(seed, number).image
    } else {
        program(seed, number).image()
    }
}

/// Makes some Fx values a little larger. Those of programs in order are whole
/// quarters, whose products and quotients seldom need rounding.
fn uneven_fx(random: &mut SplitMix64, program: &mut Program) {
    let instrs = program.functions.iter_mut().flat_map(|f| &mut f.instrs);
    for load in instrs.filter(|record| record.opcode == 8) {
        if random.once_in(3) {
            load.w |= random.below(16_384) as u32;
        }
    }
}

#[cfg(test)]
mod tests;
