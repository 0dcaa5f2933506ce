//! Lines about one operation on two registers, answered by a program of a few
//! instructions that the Rust runs.

use semantic_core_exec::{
    CoreConfig, CoreExecutor, CoreFunction, CoreProgram, CoreResult, CoreStatus, Instr,
};
use semantic_core_runtime::{FunctionId, SymbolId};

use crate::image::Record;
use crate::text::hex_number;
use crate::word::{self, value_word};

const LHS: u16 = 0;
const RHS: u16 = 1;
const DST: u16 = 2;
const REGS: u16 = 3;
/// Past the registers, so that reading it is the trap InvalidRegister.
const MISSING: u16 = 7;
const MISSING_FIELD: &str = "----------------";

/// One operation. A missing operand is `None`, any other one a register word.
#[derive(Debug, Clone, Copy, PartialEq, Eq, Hash)]
pub struct Case {
    pub opcode: u8,
    pub small: u8,
    pub w: u32,
    pub lhs: Option<u64>,
    pub rhs: Option<u64>,
}

/// Whether an opcode reads one register only (Move among them).
pub fn one_operand(opcode: u8) -> bool {
    matches!(opcode, 9 | 15..=18 | 50)
}

impl Case {
    /// The line without its line feed: always 56 bytes.
    pub fn line(&self) -> String {
        let operand = |word: Option<u64>| match word {
            Some(word) => format!("{word:016x}"),
            None => MISSING_FIELD.to_string(),
        };
        let (lhs, rhs) = (operand(self.lhs), operand(self.rhs));
        format!(
            "operate {:02x} {:02x} {:08x} {lhs} {rhs}",
            self.opcode, self.small, self.w
        )
    }

    /// Reads the fields that follow the line's first word.
    pub fn read(fields: &[&[u8]]) -> Option<Self> {
        let [opcode, small, w, lhs, rhs] = fields else {
            return None;
        };
        Some(Self {
            opcode: hex_number(opcode, 2)? as u8,
            small: hex_number(small, 2)? as u8,
            w: hex_number(w, 8)? as u32,
            lhs: read_operand(lhs)?,
            rhs: read_operand(rhs)?,
        })
    }

    /// Loads the operands that are there, does the operation, returns its
    /// result. Nothing for a case that no image could hold.
    fn program(&self) -> Option<CoreProgram> {
        let mut instrs = Vec::with_capacity(4);
        for (register, operand) in [(LHS, self.lhs), (RHS, self.rhs)] {
            if let Some(word) = operand {
                instrs.push(load(register, word)?);
            }
        }
        instrs.push(self.operation()?);
        instrs.push(
            Record {
                opcode: 55,
                a: DST,
                ..Record::default()
            }
            .instruction()?,
        );
        let function = CoreFunction {
            name_id: SymbolId(0),
            regs: REGS,
            instrs,
        };
        Some(CoreProgram {
            functions: vec![function],
            entry: FunctionId(0),
        })
    }

    fn operation(&self) -> Option<Instr> {
        let lhs = if self.lhs.is_some() { LHS } else { MISSING };
        let rhs = if self.rhs.is_some() { RHS } else { MISSING };
        let (b, c) = match self.opcode {
            3..=8 => (0, 0),
            opcode if one_operand(opcode) => (lhs, 0),
            9..=50 => (lhs, rhs),
            _ => return None,
        };
        let Self {
            opcode, small, w, ..
        } = *self;
        Record {
            opcode,
            small,
            a: DST,
            b,
            c,
            w,
        }
        .instruction()
    }

    fn result(&self) -> Option<CoreResult> {
        let program = self.program()?;
        Some(CoreExecutor::new(CoreConfig::default()).execute_outcome(&program))
    }
}

fn read_operand(field: &[u8]) -> Option<Option<u64>> {
    if field == MISSING_FIELD.as_bytes() {
        return Some(None);
    }
    hex_number(field, 16).map(Some)
}

/// The load that puts a register word into a register. Nothing for a word that
/// stands for no value: an unknown kind, or a payload its kind does not have.
fn load(register: u16, word: u64) -> Option<Instr> {
    let payload = word as u32;
    let (opcode, small, w) = match word >> 32 {
        word::UNIT => (3, 0, payload),
        word::QUAD => (4, u8::try_from(payload).ok()?, 0),
        word::BOOL => (5, u8::try_from(payload).ok()?, 0),
        word::I32 => (6, 0, payload),
        word::U32 => (7, 0, payload),
        word::FX => (8, 0, payload),
        _ => return None,
    };
    Record {
        opcode,
        small,
        a: register,
        w,
        ..Record::default()
    }
    .instruction()
}

/// `value WORD` or `trap CODE`; nothing for fields that are no operation, or
/// one that no image could hold.
pub fn answer(fields: &[&[u8]]) -> Option<String> {
    let result = Case::read(fields)?.result()?;
    Some(match result.status {
        CoreStatus::Returned => format!("value {:016x}", value_word(result.return_value)),
        CoreStatus::Trapped(trap) => format!("trap {}", trap.code()),
    })
}

#[cfg(test)]
mod tests;
