//! Limits to admit a program under: mostly ones that are usable, and often
//! just as large as the program needs or one less.

use semantic_core_runtime::CoreAdmissionProfile;

use crate::program::Program;
use crate::random::SplitMix64;

/// The largest limits that a profile may have.
pub const BOUNDS: CoreAdmissionProfile = CoreAdmissionProfile {
    max_registers: CoreAdmissionProfile::MAX_REGISTERS_BOUND,
    max_functions: CoreAdmissionProfile::MAX_FUNCTIONS_BOUND,
    max_call_depth: CoreAdmissionProfile::MAX_CALL_DEPTH_BOUND,
    max_instrs_per_function: CoreAdmissionProfile::MAX_INSTRS_BOUND,
    max_fuel: CoreAdmissionProfile::MAX_FUEL_BOUND,
};

/// Limits for this program.
pub fn profile(random: &mut SplitMix64, program: &Program) -> CoreAdmissionProfile {
    let mut profile = match random.below(10) {
        0..=2 => CoreAdmissionProfile::safe(),
        3 => BOUNDS,
        4 | 5 => roomy(random),
        6 | 7 => exact(random, program),
        _ => one_less(random, program),
    };
    if random.once_in(9) {
        for _ in 0..random.one_of([1, 1, 1, 2, 3, 5]) {
            edit(random, &mut profile);
        }
    }
    profile
}

/// More than a small program needs, and different in every field.
fn roomy(random: &mut SplitMix64) -> CoreAdmissionProfile {
    let mut upto = |first, bound: u64| random.between(first, bound);
    CoreAdmissionProfile {
        max_registers: upto(100, BOUNDS.max_registers.into()) as u16,
        max_functions: upto(10, BOUNDS.max_functions.into()) as u16,
        max_call_depth: upto(1, BOUNDS.max_call_depth.into()) as u16,
        max_instrs_per_function: upto(1_000, BOUNDS.max_instrs_per_function.into()) as u32,
        max_fuel: upto(1, BOUNDS.max_fuel),
    }
}

/// Just as much as the program needs, kept to the bounds.
fn exact(random: &mut SplitMix64, program: &Program) -> CoreAdmissionProfile {
    let regs = program.functions.iter().map(|f| f.regs).max();
    let instrs = program.functions.iter().map(|f| f.instrs.len()).max();
    let kept = |need: usize, bound: u64| (need as u64).clamp(1, bound);
    CoreAdmissionProfile {
        max_registers: kept(regs.unwrap_or(0).into(), BOUNDS.max_registers.into()) as u16,
        max_functions: kept(program.functions.len(), BOUNDS.max_functions.into()) as u16,
        max_instrs_per_function: kept(instrs.unwrap_or(0), BOUNDS.max_instrs_per_function.into())
            as u32,
        ..roomy(random)
    }
}

/// One less than the program needs in one place, seldom in all three.
fn one_less(random: &mut SplitMix64, program: &Program) -> CoreAdmissionProfile {
    let mut profile = exact(random, program);
    let place = random.below(7);
    let all = place == 6;
    if all || place < 2 {
        profile.max_registers -= 1;
    }
    if all || matches!(place, 2 | 3) {
        profile.max_functions -= 1;
    }
    if all || matches!(place, 4 | 5) {
        profile.max_instrs_per_function -= 1;
    }
    profile
}

/// Puts one field to an end of its range, or just past it, or to a number that
/// would look like 0 in half of its bits.
fn edit(random: &mut SplitMix64, profile: &mut CoreAdmissionProfile) {
    let field = random.below(5);
    let mut edge = |bound: u64, bits: u32| {
        let most = u64::MAX >> (64 - bits);
        random.one_of([0, 0, 1, bound, bound + 1, most, 1 << (bits / 2)])
    };
    match field {
        0 => profile.max_registers = edge(BOUNDS.max_registers.into(), 16) as u16,
        1 => profile.max_functions = edge(BOUNDS.max_functions.into(), 16) as u16,
        2 => profile.max_call_depth = edge(BOUNDS.max_call_depth.into(), 16) as u16,
        3 => {
            let bound = BOUNDS.max_instrs_per_function.into();
            profile.max_instrs_per_function = edge(bound, 32) as u32;
        }
        _ => profile.max_fuel = edge(BOUNDS.max_fuel, 64),
    }
}

#[cfg(test)]
mod tests;
