//! The image of the Rust's own program, by document 01's layout: the other way
//! round than `image::read`.

use semantic_core_exec::{CoreProgram, Instr, RegId};

use crate::image::Record;
use crate::program::{Function, Program};
use crate::records::{call, jump, jump_if, load, plain, ret, three, two};

pub fn image(program: &CoreProgram) -> Vec<u8> {
    let functions = program.functions.iter().map(|function| Function {
        name_id: function.name_id.0,
        regs: function.regs,
        instrs: function.instrs.iter().map(record).collect(),
    });
    Program {
        entry: program.entry.0,
        functions: functions.collect(),
    }
    .image()
}

/// The record of an instruction, each operand where document 01 puts it.
pub fn record(instr: &Instr) -> Record {
    let opcode = instr.opcode() as u8;
    if let Some([dst, lhs, rhs]) = three_registers(instr) {
        return three(opcode, dst.0, lhs.0, rhs.0);
    }
    if let Some([dst, src]) = two_registers(instr) {
        return two(opcode, dst.0, src.0);
    }
    match instr {
        Instr::Assert { cond } => load(opcode, cond.0, 0, 0),
        Instr::LoadUnit { dst } => load(opcode, dst.0, 0, 0),
        Instr::LoadQuad { dst, value } => load(opcode, dst.0, value.bits(), 0),
        Instr::LoadBool { dst, value } => load(opcode, dst.0, (*value).into(), 0),
        Instr::LoadI32 { dst, value } => load(opcode, dst.0, 0, *value as u32),
        Instr::LoadU32 { dst, value } => load(opcode, dst.0, 0, *value),
        Instr::LoadFx { dst, value } => load(opcode, dst.0, 0, value.raw() as u32),
        Instr::Jump { target } => jump(*target),
        Instr::JumpIfTrue { cond, target } | Instr::JumpIfFalse { cond, target } => {
            jump_if(opcode, cond.0, *target)
        }
        Instr::Call {
            dst,
            function,
            arg_base,
            arg_count,
        } => call(dst.0, function.0, arg_base.0, (*arg_count).into()),
        Instr::Ret { src } => ret(src.0),
        // Nop and Trap: all others with operands were met above.
        _ => plain(opcode),
    }
}

fn two_registers(instr: &Instr) -> Option<[RegId; 2]> {
    match instr {
        Instr::QNot { dst, src }
        | Instr::QIsKnown { dst, src }
        | Instr::QIsConflict { dst, src }
        | Instr::QIsNull { dst, src }
        | Instr::BoolNot { dst, src }
        | Instr::Move { dst, src } => Some([*dst, *src]),
        _ => None,
    }
}

fn three_registers(instr: &Instr) -> Option<[RegId; 3]> {
    match instr {
        Instr::QJoin { dst, lhs, rhs }
        | Instr::QMeet { dst, lhs, rhs }
        | Instr::QImpl { dst, lhs, rhs }
        | Instr::QEq { dst, lhs, rhs }
        | Instr::QNe { dst, lhs, rhs }
        | Instr::BoolAnd { dst, lhs, rhs }
        | Instr::BoolOr { dst, lhs, rhs }
        | Instr::BoolEq { dst, lhs, rhs }
        | Instr::BoolNe { dst, lhs, rhs }
        | Instr::I32Add { dst, lhs, rhs }
        | Instr::I32Sub { dst, lhs, rhs }
        | Instr::I32Mul { dst, lhs, rhs }
        | Instr::I32Div { dst, lhs, rhs }
        | Instr::I32Eq { dst, lhs, rhs }
        | Instr::I32Lt { dst, lhs, rhs }
        | Instr::I32Le { dst, lhs, rhs }
        | Instr::I32Gt { dst, lhs, rhs }
        | Instr::I32Ge { dst, lhs, rhs }
        | Instr::U32Add { dst, lhs, rhs }
        | Instr::U32Sub { dst, lhs, rhs }
        | Instr::U32Mul { dst, lhs, rhs }
        | Instr::U32Div { dst, lhs, rhs }
        | Instr::U32Eq { dst, lhs, rhs }
        | Instr::U32Lt { dst, lhs, rhs }
        | Instr::U32Le { dst, lhs, rhs }
        | Instr::U32Gt { dst, lhs, rhs }
        | Instr::U32Ge { dst, lhs, rhs }
        | Instr::FxAdd { dst, lhs, rhs }
        | Instr::FxSub { dst, lhs, rhs }
        | Instr::FxMul { dst, lhs, rhs }
        | Instr::FxDiv { dst, lhs, rhs }
        | Instr::FxEq { dst, lhs, rhs }
        | Instr::FxLt { dst, lhs, rhs }
        | Instr::FxLe { dst, lhs, rhs }
        | Instr::FxGt { dst, lhs, rhs }
        | Instr::FxGe { dst, lhs, rhs } => Some([*dst, *lhs, *rhs]),
        _ => None,
    }
}

#[cfg(test)]
mod tests {
    use super::*;
    use crate::fields::used;
    use crate::generate;
    use crate::image::read;

    /// Every used field is another number, as far as its range goes.
    #[test]
    fn each_opcode_goes_there_and_back() {
        for opcode in 0..=55 {
            let mut record = plain(opcode);
            for (value, field) in (1..).zip(used(opcode)) {
                field.set(&mut record, value);
            }
            let instr = record.instruction().unwrap();
            assert_eq!(super::record(&instr), record, "{instr:?}");
        }
    }

    #[test]
    fn values_at_their_ends_go_there_and_back() {
        let records = [
            load(4, 1, 3, 0),
            load(6, 1, 0, u32::MAX),
            load(7, 1, 0, u32::MAX),
            load(8, 1, 0, 1 << 31),
            call(65_535, 65_534, 65_533, 65_535),
            jump_if(53, 9, u32::MAX),
        ];
        for expected in records {
            assert_eq!(record(&expected.instruction().unwrap()), expected);
        }
    }

    #[test]
    fn a_whole_program_goes_there_and_back() {
        for number in 0..200 {
            let bytes = generate::program(7, number).image();
            assert_eq!(image(&read(&bytes).unwrap()), bytes);
        }
    }
}
