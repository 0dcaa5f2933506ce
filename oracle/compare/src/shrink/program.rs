//! Ways to make a program smaller: fewer functions, fewer instructions, Nops,
//! fewer registers, smaller numbers.

use std::ops::Range;

use oracle::fields::{self, Field, FIELDS};
use oracle::image::Record;
use oracle::program::{Function, Program};
use oracle::records::plain;

use super::numbers::{closer_to_zero, parts, smaller};

const NOP: u8 = 0;
const CALL: u8 = 54;
/// Single functions and instructions are looked at in programs that have no
/// more than so many. Larger ones lose whole parts first.
const FEW_FUNCTIONS: usize = 256;
const FEW_INSTRUCTIONS: usize = 2_048;

/// One way. Functions and instructions go by their numbers and places.
#[derive(Debug, Clone, PartialEq, Eq)]
pub enum Edit {
    /// This function is the only one.
    Only(usize),
    Functions(Range<usize>),
    Instructions(usize, Range<usize>),
    Nop(usize, usize),
    /// Registers that no instruction names are left out.
    Compact(usize),
    Registers(usize, u16),
    Nameless(usize),
    Entry(u16),
    Number(usize, usize, Field, u32),
}

/// Those first that take away the most.
pub fn edits(program: &Program) -> Vec<Edit> {
    let functions = program.functions.len();
    let mut edits = Vec::new();
    if (2..=FEW_FUNCTIONS).contains(&functions) {
        edits.extend((0..functions).map(Edit::Only));
    }
    edits.extend(parts(functions).into_iter().map(Edit::Functions));
    if functions > FEW_FUNCTIONS {
        return edits;
    }
    for (number, function) in program.functions.iter().enumerate() {
        let parts = parts(function.instrs.len()).into_iter();
        edits.extend(parts.map(|part| Edit::Instructions(number, part)));
    }
    let instructions: usize = program.functions.iter().map(|f| f.instrs.len()).sum();
    if instructions <= FEW_INSTRUCTIONS {
        fine_edits(program, &mut edits);
    }
    edits
}

fn fine_edits(program: &Program, edits: &mut Vec<Edit>) {
    let functions = || program.functions.iter().enumerate();
    for (number, function) in functions() {
        let places = 0..function.instrs.len();
        edits.extend(places.map(|place| Edit::Nop(number, place)));
    }
    for (number, function) in functions() {
        edits.push(Edit::Compact(number));
        let fewer = smaller(function.regs.into()).into_iter();
        edits.extend(fewer.map(|regs| Edit::Registers(number, regs as u16)));
        edits.push(Edit::Nameless(number));
    }
    let entries = smaller(program.entry.into()).into_iter();
    edits.extend(entries.map(|entry| Edit::Entry(entry as u16)));
    for (number, function) in functions() {
        for (place, record) in function.instrs.iter().enumerate() {
            for field in FIELDS {
                let values = values(record, field).into_iter();
                edits.extend(values.map(|value| Edit::Number(number, place, field, value)));
            }
        }
    }
}

/// Simpler values of a field. What I32 and Fx load is signed.
fn values(record: &Record, field: Field) -> Vec<u32> {
    let value = field.get(record);
    if matches!((record.opcode, field), (6 | 8, Field::W)) {
        let numbers = closer_to_zero(value as i32).into_iter();
        return numbers.map(|number| number as u32).collect();
    }
    let numbers = smaller(value.into()).into_iter();
    numbers.map(|number| number as u32).collect()
}

/// What an edit makes of the program; nothing where that is no change.
pub fn edited(program: &Program, edit: &Edit) -> Option<Program> {
    let mut copy = match edit {
        Edit::Only(number) => {
            let first = without_functions(program, number + 1..program.functions.len());
            let only = without_functions(&first, 0..*number);
            return Some(Program { entry: 0, ..only });
        }
        Edit::Functions(part) => return Some(without_functions(program, part.clone())),
        _ => program.clone(),
    };
    match edit {
        Edit::Only(_) | Edit::Functions(_) => {}
        Edit::Instructions(number, part) => {
            without_instructions(copy.functions.get_mut(*number)?, part);
        }
        Edit::Nop(number, place) => {
            *copy.functions.get_mut(*number)?.instrs.get_mut(*place)? = plain(NOP);
        }
        Edit::Compact(number) => compact(copy.functions.get_mut(*number)?),
        Edit::Registers(number, regs) => copy.functions.get_mut(*number)?.regs = *regs,
        Edit::Nameless(number) => copy.functions.get_mut(*number)?.name_id = 0,
        Edit::Entry(entry) => copy.entry = *entry,
        Edit::Number(number, place, field, value) => {
            let function = copy.functions.get_mut(*number)?;
            field.set(function.instrs.get_mut(*place)?, *value);
        }
    }
    (copy != *program).then_some(copy)
}

/// Leaves functions out and gives the others their new numbers. A Call of one
/// that is gone becomes a Nop; an entry that is gone is the next one.
fn without_functions(program: &Program, part: Range<usize>) -> Program {
    let renumbered = |number: u16| {
        let number = usize::from(number);
        let gone = number.clamp(part.start, part.end) - part.start;
        (number - gone) as u16
    };
    let mut functions = program.functions.clone();
    functions.drain(part.clone());
    for record in functions.iter_mut().flat_map(|f| &mut f.instrs) {
        if record.opcode == CALL {
            match part.contains(&usize::from(record.b)) {
                true => *record = plain(NOP),
                false => record.b = renumbered(record.b),
            }
        }
    }
    Program {
        entry: renumbered(program.entry),
        functions,
    }
}

/// Leaves instructions out. A jump to one that is gone goes to the next, and
/// one past the end stays as far past it.
fn without_instructions(function: &mut Function, part: &Range<usize>) {
    let moved = |target: u32| {
        let target = target as usize;
        let gone = target.clamp(part.start, part.end) - part.start;
        (target - gone) as u32
    };
    function.instrs.drain(part.clone());
    let jumps = function.instrs.iter_mut();
    for jump in jumps.filter(|record| fields::jumps(record.opcode)) {
        jump.w = moved(jump.w);
    }
}

/// Leaves out the registers that no instruction names, and gives the others
/// new numbers in the same order. Those past the end stay as far past it.
fn compact(function: &mut Function) {
    let regs = usize::from(function.regs);
    let mut named = vec![false; regs];
    for record in &function.instrs {
        for register in named_by(record) {
            if let Some(named) = named.get_mut(register) {
                *named = true;
            }
        }
    }
    let mut below = vec![0; regs + 1];
    for register in 0..regs {
        below[register + 1] = below[register] + usize::from(named[register]);
    }
    let renumbered = |register: u32| {
        let register = register as usize;
        let kept = below[register.min(regs)];
        (kept + register.saturating_sub(regs)) as u32
    };
    for record in &mut function.instrs {
        for field in register_fields(record.opcode) {
            field.set(record, renumbered(field.get(record)));
        }
    }
    function.regs = below[regs] as u16;
}

/// The registers that an instruction names, a Call's window among them.
fn named_by(record: &Record) -> Vec<usize> {
    let fields = fields::registers(record.opcode).iter();
    let mut named: Vec<usize> = fields.map(|field| field.get(record) as usize).collect();
    if record.opcode == CALL {
        let base = usize::from(record.c);
        named.extend(base..base + record.w.min(65_535) as usize);
    }
    named
}

/// The fields that hold a register's number. A Call's window begins with one.
fn register_fields(opcode: u8) -> &'static [Field] {
    match opcode {
        CALL => &[Field::A, Field::C],
        _ => fields::registers(opcode),
    }
}

#[cfg(test)]
mod tests;
