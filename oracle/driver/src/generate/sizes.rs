//! Programs grown to the sizes at which document 01 sets its limits, and one
//! past them.
//!
//! The large ones are slow, so their places in the sequence are fixed: a run
//! of any length has a few of them and no more.

use semantic_core_runtime::CoreAdmissionProfile;

use super::limits::BOUNDS;
use crate::program::{Function, Program};
use crate::random::SplitMix64;
use crate::records::{plain, ret};

/// One case in so many has a million instructions (12 MB), and one has more
/// functions than 16 bits can number.
const HUGE_EVERY: u64 = 16_384;
const HUGE_AT: u64 = 4_999;
const CROWD_AT: u64 = 12_345;
/// One case in so many has thousands of instructions or functions.
const LARGE_EVERY: u64 = 512;
const LARGE_AT: u64 = 77;
/// One case in so many has a few hundred registers or functions, or more
/// registers than any profile allows; that takes no time.
const SOME_EVERY: u64 = 16;

/// Grows the program, or mostly leaves it as it is. Answers with the limits
/// that belong to the size, if any do.
pub fn grow(
    random: &mut SplitMix64,
    number: u64,
    program: &mut Program,
) -> Option<CoreAdmissionProfile> {
    // Both sides of each limit in turn, since there are few of these.
    let past = |every: u64| (number / every) % 2;
    let large_past = number / (2 * LARGE_EVERY) % 2;
    let limits = match (number % HUGE_EVERY, number % LARGE_EVERY) {
        (HUGE_AT, _) => instructions(random, program, BOUNDS, past(HUGE_EVERY)),
        (CROWD_AT, _) => functions_by_16_bits(program, past(HUGE_EVERY)),
        (_, LARGE_AT) if past(LARGE_EVERY) == 0 => {
            instructions(random, program, CoreAdmissionProfile::safe(), large_past)
        }
        (_, LARGE_AT) => functions(program, BOUNDS, large_past),
        _ if random.once_in(SOME_EVERY) => some(random, program),
        _ => return None,
    };
    // Now and then under limits that do not belong to the size.
    (!random.once_in(8)).then_some(limits)
}

/// The sizes that cost little, at their limit or one past it.
fn some(random: &mut SplitMix64, program: &mut Program) -> CoreAdmissionProfile {
    let past = random.below(2);
    match random.below(4) {
        0 => registers(random, program, CoreAdmissionProfile::safe(), past),
        1 => registers(random, program, BOUNDS, past),
        2 => functions(program, CoreAdmissionProfile::safe(), past),
        _ => {
            let most = random.one_of([32_768, u16::MAX]);
            set_registers(random, program, most);
            BOUNDS
        }
    }
}

fn registers(
    random: &mut SplitMix64,
    program: &mut Program,
    limits: CoreAdmissionProfile,
    past: u64,
) -> CoreAdmissionProfile {
    set_registers(random, program, limits.max_registers + past as u16);
    limits
}

/// More registers than the code uses do no harm to it.
fn set_registers(random: &mut SplitMix64, program: &mut Program, regs: u16) {
    let at = random.index(program.functions.len());
    program.functions[at].regs = regs;
}

fn functions(
    program: &mut Program,
    limits: CoreAdmissionProfile,
    past: u64,
) -> CoreAdmissionProfile {
    add_functions(program, usize::from(limits.max_functions) + past as usize);
    limits
}

/// 65,536 functions and 65,537: with their count kept in 16 bits they would
/// look like none and one.
fn functions_by_16_bits(program: &mut Program, past: u64) -> CoreAdmissionProfile {
    add_functions(program, 65_536 + past as usize);
    BOUNDS
}

/// Fills up with functions that are as small as they can be.
fn add_functions(program: &mut Program, count: usize) {
    let filler = Function::new(1, vec![ret(0)]);
    program.functions.resize(count, filler);
}

/// Fills one function up with its own instructions over and over, whose
/// operands are right wherever they stand, and ends it with a Nop and a Ret.
fn instructions(
    random: &mut SplitMix64,
    program: &mut Program,
    limits: CoreAdmissionProfile,
    past: u64,
) -> CoreAdmissionProfile {
    let at = random.index(program.functions.len());
    let count = limits.max_instrs_per_function as usize + past as usize;
    let instrs = &mut program.functions[at].instrs;
    let filler = instrs.clone();
    instrs.extend(filler.iter().cycle().take(count - filler.len() - 2));
    instrs.extend([plain(0), ret(0)]);
    limits
}
