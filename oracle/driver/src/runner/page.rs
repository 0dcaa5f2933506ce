//! What stands about the images in their README: a table and listings.

use semantic_core_exec::Instr;
use semantic_core_quad::QuadState;
use semantic_core_runtime::CoreAdmissionProfile;

use super::line;
use crate::encode::record;
use crate::examples::{self, Example, Rule};
use crate::fields;
use crate::image::{self, Record};
use crate::{answer, verdict};

/// A row for each image: its file, what it is, the runner's line, and whether
/// it is admitted.
pub fn table() -> String {
    let mut text = String::from(
        "| file | what it is | ./run prints | admission under the safe limits |\n\
         |---|---|---|---|\n",
    );
    for example in examples::all() {
        let Example {
            file, about, image, ..
        } = &example;
        let (line, admission) = (line(image), admission(image));
        text += &format!("| `{file}` | {about} | `{line}` | `{admission}` |\n");
    }
    text
}

/// The Rust's verdict under `safe`, or the image's fault.
fn admission(image: &[u8]) -> String {
    match image::read(image) {
        Ok(program) => verdict::answer(&program, CoreAdmissionProfile::safe()),
        Err(fault) => answer::refused(fault),
    }
}

/// Every program in words, under its file's name.
pub fn listings() -> String {
    let programs = examples::all();
    let programs = programs.iter().filter(|example| !example.rules.is_empty());
    let listing = |example: &Example| {
        let rules = (0..).zip(&example.rules);
        let rules: Vec<String> = rules.map(|(number, rule)| function(number, rule)).collect();
        format!("### {}\n\n{}", example.file, rules.join("\n"))
    };
    let listings: Vec<String> = programs.map(listing).collect();
    listings.join("\n")
}

/// Four spaces before each line make it a listing.
fn function(number: usize, rule: &Rule) -> String {
    let Rule {
        about,
        registers,
        instrs,
    } = rule;
    let mut text = format!(
        "    function {number}: {about}\n    registers: {}\n",
        registers.join(", ")
    );
    for (place, instr) in instrs.iter().enumerate() {
        let operands = operands(instr, registers).join(", ");
        text += &format!("    {place:>4}  {:?} {operands}\n", instr.opcode());
    }
    text
}

/// The operands in the order of the instruction's fields.
fn operands(instr: &Instr, registers: &[&str]) -> Vec<String> {
    let record = record(instr);
    let Record {
        opcode, a, b, c, w, ..
    } = record;
    let name = |number: u16| match registers.get(usize::from(number)) {
        Some(name) => name.to_string(),
        None => format!("register {number}"),
    };
    match opcode {
        4..=8 => vec![name(a), value(instr)],
        51 => vec![format!("to {w}")],
        52 | 53 => vec![name(a), format!("to {w}")],
        54 => {
            let window = (c..).take(w as usize).map(name).collect::<Vec<_>>();
            let given = window.join(", ");
            vec![name(a), format!("function {b} of ({given})")]
        }
        _ => {
            let all = [a, b, c];
            let used = &all[..fields::registers(opcode).len()];
            used.iter().copied().map(name).collect()
        }
    }
}

/// What a load loads. Every Fx of the examples is whole in hundredths.
fn value(instr: &Instr) -> String {
    match instr {
        Instr::LoadQuad { value, .. } => quad(*value).to_string(),
        Instr::LoadBool { value, .. } => value.to_string(),
        Instr::LoadI32 { value, .. } => value.to_string(),
        Instr::LoadU32 { value, .. } => value.to_string(),
        Instr::LoadFx { value, .. } => format!("{:.2}", f64::from(value.raw()) / 65_536.0),
        _ => String::new(),
    }
}

fn quad(value: QuadState) -> &'static str {
    ["N", "F", "T", "S"][usize::from(value.bits())]
}
