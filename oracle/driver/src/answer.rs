//! The line forms of `oracle answer`.

use semantic_core_exec::CoreProgram;
use semantic_core_runtime::CoreAdmissionProfile;

use crate::image::{self, Fault};
use crate::text::{decimal, hex_bytes};
use crate::{operate, run, verdict};

/// Answers one line; nothing for one that has none of the forms. All fields
/// are read before the image is looked into, so a line that is wrong in both
/// ways has none.
pub fn answer(line: &[u8]) -> Option<String> {
    let fields: Vec<&[u8]> = line.split(|byte| *byte == b' ').collect();
    match fields.as_slice() {
        [b"operate", operation @ ..] => operate::answer(operation),
        [b"validate", limits @ .., image] => {
            let profile = profile(limits)?;
            let image = hex_bytes(image)?;
            Some(of_image(&image, |program| {
                verdict::answer(program, profile)
            }))
        }
        [b"run", fuel, depth, image] => {
            let fuel = decimal(fuel)?;
            let depth = decimal(depth)?;
            let image = hex_bytes(image)?;
            Some(of_image(&image, |program| {
                run::answer(program, fuel, depth)
            }))
        }
        _ => None,
    }
}

fn profile(limits: &[&[u8]]) -> Option<CoreAdmissionProfile> {
    let [regs, functions, depth, instrs, fuel] = limits else {
        return None;
    };
    Some(CoreAdmissionProfile {
        max_registers: decimal(regs)?,
        max_functions: decimal(functions)?,
        max_call_depth: decimal(depth)?,
        max_instrs_per_function: decimal(instrs)?,
        max_fuel: decimal(fuel)?,
    })
}

/// Image faults come before everything else that is asked about a program.
fn of_image(image: &[u8], of_program: impl Fn(&CoreProgram) -> String) -> String {
    match image::read(image) {
        Ok(program) => of_program(&program),
        Err(fault) => refused(fault),
    }
}

/// `refused NUMBER ANSWER`: document 01's number of the fault and its answer.
pub fn refused(fault: Fault) -> String {
    format!("refused {} {}", fault.number(), fault.answer())
}

#[cfg(test)]
mod tests;
