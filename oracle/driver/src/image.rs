//! The program image of document 01 (section "Image", form 1), read into the
//! Rust engine's own program.
//!
//! The Rust has no image, so this reader is written from document 01 alone and
//! checks all that document demands. It can therefore serve as a second,
//! independent reading of those rules.

use semantic_core_exec::{CoreFunction, CoreProgram, Fx, Instr, RegId};
use semantic_core_quad::QuadState;
use semantic_core_runtime::{FunctionId, SymbolId};

const HEADER: usize = 24;
const FUNCTION_RECORD: usize = 16;
const INSTRUCTION_RECORD: usize = 12;

/// Why bytes are not an image: refusals 1 to 5 of document 01.
#[derive(Debug, Clone, Copy, PartialEq, Eq)]
pub enum Fault {
    Short,
    Form,
    Layout,
    /// Holds the function number, or the function count if only the sum fails.
    FunctionTable(u32),
    /// Holds the instruction's number in the whole table.
    Instruction(u32),
}

impl Fault {
    /// The first column of document 01's table.
    pub fn number(self) -> u32 {
        match self {
            Self::Short => 1,
            Self::Form => 2,
            Self::Layout => 3,
            Self::FunctionTable(_) => 4,
            Self::Instruction(_) => 5,
        }
    }

    /// The last column of document 01's table.
    pub fn answer(self) -> u32 {
        match self {
            Self::Short | Self::Form | Self::Layout => 0,
            Self::FunctionTable(at) | Self::Instruction(at) => at,
        }
    }
}

/// An image's tables, their records as they stand.
#[derive(Debug, Clone, PartialEq, Eq)]
pub struct Tables {
    pub entry: u16,
    pub functions: Vec<FunctionRow>,
    pub instructions: Vec<Record>,
}

#[derive(Debug, Clone, Copy, PartialEq, Eq)]
pub struct FunctionRow {
    pub name_id: u32,
    pub regs: u16,
    /// The number of its first instruction in the whole table.
    pub first: u32,
    pub count: u32,
}

/// Checks an image. Faults are looked for in document 01's order: length, form,
/// layout, all functions, all instructions; the first one is the answer.
pub fn check(image: &[u8]) -> Result<Tables, Fault> {
    let tables = tables(image)?;
    let fault = |record: &Record| record.instruction().is_none();
    match tables.instructions.iter().position(fault) {
        Some(number) => Err(Fault::Instruction(number as u32)),
        None => Ok(tables),
    }
}

/// The tables of bytes that have no fault but in instructions, which are not
/// looked at here.
pub fn tables(image: &[u8]) -> Result<Tables, Fault> {
    let header = Header::read(image)?;
    let (functions, instructions) = image[HEADER..].split_at(header.function_bytes());
    Ok(Tables {
        entry: header.entry,
        functions: function_table(functions, header.instruction_count)?,
        instructions: instructions
            .chunks_exact(INSTRUCTION_RECORD)
            .map(Record::read)
            .collect(),
    })
}

/// Reads an image into the Rust's own program.
pub fn read(image: &[u8]) -> Result<CoreProgram, Fault> {
    let Tables {
        entry,
        functions,
        instructions,
    } = check(image)?;
    // No record is passed over: the check refused every one that is none.
    let mut instrs = instructions.into_iter().filter_map(Record::instruction);
    let functions = functions
        .into_iter()
        .map(|row| CoreFunction {
            name_id: SymbolId(row.name_id),
            regs: row.regs,
            instrs: instrs.by_ref().take(row.count as usize).collect(),
        })
        .collect();
    Ok(CoreProgram {
        functions,
        entry: FunctionId(entry),
    })
}

struct Header {
    entry: u16,
    function_count: u32,
    instruction_count: u32,
}

impl Header {
    fn read(image: &[u8]) -> Result<Self, Fault> {
        if image.len() < HEADER {
            return Err(Fault::Short);
        }
        if u16_at(image, 0) != 1 {
            return Err(Fault::Form);
        }
        let header = Self {
            entry: u16_at(image, 2),
            function_count: u32_at(image, 4),
            instruction_count: u32_at(image, 8),
        };
        if header.layout_holds(image) {
            Ok(header)
        } else {
            Err(Fault::Layout)
        }
    }

    /// The places are worked out in 64 bits: two large counts may add up to a
    /// length that 32 bits would wrap into one that looks right.
    fn layout_holds(&self, image: &[u8]) -> bool {
        let functions = HEADER as u64;
        let instructions = functions + FUNCTION_RECORD as u64 * u64::from(self.function_count);
        let total = instructions + INSTRUCTION_RECORD as u64 * u64::from(self.instruction_count);
        u64::from(u32_at(image, 12)) == functions
            && u64::from(u32_at(image, 16)) == instructions
            && u64::from(u32_at(image, 20)) == total
            && image.len() as u64 == total
    }

    fn function_bytes(&self) -> usize {
        FUNCTION_RECORD * self.function_count as usize
    }
}

/// Every function's row, its joins followed in 64 bits so that no sum wraps.
fn function_table(table: &[u8], instruction_count: u32) -> Result<Vec<FunctionRow>, Fault> {
    let mut rows = Vec::with_capacity(table.len() / FUNCTION_RECORD);
    let mut next_first = 0;
    for (number, record) in table.chunks_exact(FUNCTION_RECORD).enumerate() {
        let zero = u16_at(record, 6);
        let first = u32_at(record, 8);
        if zero != 0 || u64::from(first) != next_first {
            return Err(Fault::FunctionTable(number as u32));
        }
        let count = u32_at(record, 12);
        next_first += u64::from(count);
        rows.push(FunctionRow {
            name_id: u32_at(record, 0),
            regs: u16_at(record, 4),
            first,
            count,
        });
    }
    if next_first != u64::from(instruction_count) {
        return Err(Fault::FunctionTable(rows.len() as u32));
    }
    Ok(rows)
}

/// One instruction record, as its fields stand in the image.
#[derive(Debug, Clone, Copy, Default, PartialEq, Eq)]
pub struct Record {
    pub opcode: u8,
    pub small: u8,
    pub a: u16,
    pub b: u16,
    pub c: u16,
    pub w: u32,
}

impl Record {
    fn read(bytes: &[u8]) -> Self {
        Self {
            opcode: bytes[0],
            small: bytes[1],
            a: u16_at(bytes, 2),
            b: u16_at(bytes, 4),
            c: u16_at(bytes, 6),
            w: u32_at(bytes, 8),
        }
    }

    /// The Rust's instruction for this record, or nothing where document 01
    /// refuses it: opcode, small, w or a field the opcode does not use.
    pub fn instruction(self) -> Option<Instr> {
        match self.opcode {
            0..=2 => self.plain(),
            3..=8 => self.load(),
            9 | 15..=18 | 50 => self.two_registers(),
            10..=14 | 19..=49 => self.three_registers(),
            51..=53 => self.jump(),
            54..=55 => self.call_or_return(),
            _ => None,
        }
    }

    fn plain(self) -> Option<Instr> {
        let Self {
            a,
            small: 0,
            b: 0,
            c: 0,
            w: 0,
            ..
        } = self
        else {
            return None;
        };
        match (self.opcode, a) {
            (0, 0) => Some(Instr::Nop),
            (1, 0) => Some(Instr::Trap),
            (2, _) => Some(Instr::Assert { cond: RegId(a) }),
            _ => None,
        }
    }

    fn load(self) -> Option<Instr> {
        let Self { b: 0, c: 0, .. } = self else {
            return None;
        };
        let dst = RegId(self.a);
        match (self.opcode, self.small, self.w) {
            (3, 0, 0) => Some(Instr::LoadUnit { dst }),
            (4, 0..=3, 0) => {
                let value = QuadState::from_bits(self.small)?;
                Some(Instr::LoadQuad { dst, value })
            }
            (5, 0..=1, 0) => Some(Instr::LoadBool {
                dst,
                value: self.small == 1,
            }),
            (6, 0, w) => Some(Instr::LoadI32 {
                dst,
                value: w as i32,
            }),
            (7, 0, w) => Some(Instr::LoadU32 { dst, value: w }),
            (8, 0, w) => Some(Instr::LoadFx {
                dst,
                value: Fx::from_raw(w as i32),
            }),
            _ => None,
        }
    }

    fn two_registers(self) -> Option<Instr> {
        let Self {
            small: 0,
            c: 0,
            w: 0,
            ..
        } = self
        else {
            return None;
        };
        let (dst, src) = (RegId(self.a), RegId(self.b));
        match self.opcode {
            9 => Some(Instr::QNot { dst, src }),
            15 => Some(Instr::QIsKnown { dst, src }),
            16 => Some(Instr::QIsConflict { dst, src }),
            17 => Some(Instr::QIsNull { dst, src }),
            18 => Some(Instr::BoolNot { dst, src }),
            50 => Some(Instr::Move { dst, src }),
            _ => None,
        }
    }

    fn three_registers(self) -> Option<Instr> {
        let Self { small: 0, w: 0, .. } = self else {
            return None;
        };
        let (dst, lhs, rhs) = (RegId(self.a), RegId(self.b), RegId(self.c));
        match self.opcode {
            10..=22 => quad_or_bool(self.opcode, dst, lhs, rhs),
            23..=31 => signed(self.opcode, dst, lhs, rhs),
            32..=40 => unsigned(self.opcode, dst, lhs, rhs),
            41..=49 => fixed_point(self.opcode, dst, lhs, rhs),
            _ => None,
        }
    }

    fn jump(self) -> Option<Instr> {
        let Self {
            small: 0,
            b: 0,
            c: 0,
            w: target,
            ..
        } = self
        else {
            return None;
        };
        let cond = RegId(self.a);
        match (self.opcode, self.a) {
            (51, 0) => Some(Instr::Jump { target }),
            (52, _) => Some(Instr::JumpIfTrue { cond, target }),
            (53, _) => Some(Instr::JumpIfFalse { cond, target }),
            _ => None,
        }
    }

    fn call_or_return(self) -> Option<Instr> {
        match self {
            Self {
                opcode: 54,
                small: 0,
                ..
            } => Some(Instr::Call {
                dst: RegId(self.a),
                function: FunctionId(self.b),
                arg_base: RegId(self.c),
                arg_count: u16::try_from(self.w).ok()?,
            }),
            Self {
                opcode: 55,
                small: 0,
                b: 0,
                c: 0,
                w: 0,
                ..
            } => Some(Instr::Ret { src: RegId(self.a) }),
            _ => None,
        }
    }
}

fn quad_or_bool(opcode: u8, dst: RegId, lhs: RegId, rhs: RegId) -> Option<Instr> {
    match opcode {
        10 => Some(Instr::QJoin { dst, lhs, rhs }),
        11 => Some(Instr::QMeet { dst, lhs, rhs }),
        12 => Some(Instr::QImpl { dst, lhs, rhs }),
        13 => Some(Instr::QEq { dst, lhs, rhs }),
        14 => Some(Instr::QNe { dst, lhs, rhs }),
        19 => Some(Instr::BoolAnd { dst, lhs, rhs }),
        20 => Some(Instr::BoolOr { dst, lhs, rhs }),
        21 => Some(Instr::BoolEq { dst, lhs, rhs }),
        22 => Some(Instr::BoolNe { dst, lhs, rhs }),
        _ => None,
    }
}

fn signed(opcode: u8, dst: RegId, lhs: RegId, rhs: RegId) -> Option<Instr> {
    match opcode {
        23 => Some(Instr::I32Add { dst, lhs, rhs }),
        24 => Some(Instr::I32Sub { dst, lhs, rhs }),
        25 => Some(Instr::I32Mul { dst, lhs, rhs }),
        26 => Some(Instr::I32Div { dst, lhs, rhs }),
        27 => Some(Instr::I32Eq { dst, lhs, rhs }),
        28 => Some(Instr::I32Lt { dst, lhs, rhs }),
        29 => Some(Instr::I32Le { dst, lhs, rhs }),
        30 => Some(Instr::I32Gt { dst, lhs, rhs }),
        31 => Some(Instr::I32Ge { dst, lhs, rhs }),
        _ => None,
    }
}

fn unsigned(opcode: u8, dst: RegId, lhs: RegId, rhs: RegId) -> Option<Instr> {
    match opcode {
        32 => Some(Instr::U32Add { dst, lhs, rhs }),
        33 => Some(Instr::U32Sub { dst, lhs, rhs }),
        34 => Some(Instr::U32Mul { dst, lhs, rhs }),
        35 => Some(Instr::U32Div { dst, lhs, rhs }),
        36 => Some(Instr::U32Eq { dst, lhs, rhs }),
        37 => Some(Instr::U32Lt { dst, lhs, rhs }),
        38 => Some(Instr::U32Le { dst, lhs, rhs }),
        39 => Some(Instr::U32Gt { dst, lhs, rhs }),
        40 => Some(Instr::U32Ge { dst, lhs, rhs }),
        _ => None,
    }
}

fn fixed_point(opcode: u8, dst: RegId, lhs: RegId, rhs: RegId) -> Option<Instr> {
    match opcode {
        41 => Some(Instr::FxAdd { dst, lhs, rhs }),
        42 => Some(Instr::FxSub { dst, lhs, rhs }),
        43 => Some(Instr::FxMul { dst, lhs, rhs }),
        44 => Some(Instr::FxDiv { dst, lhs, rhs }),
        45 => Some(Instr::FxEq { dst, lhs, rhs }),
        46 => Some(Instr::FxLt { dst, lhs, rhs }),
        47 => Some(Instr::FxLe { dst, lhs, rhs }),
        48 => Some(Instr::FxGt { dst, lhs, rhs }),
        49 => Some(Instr::FxGe { dst, lhs, rhs }),
        _ => None,
    }
}

fn u16_at(bytes: &[u8], at: usize) -> u16 {
    u16::from_le_bytes([bytes[at], bytes[at + 1]])
}

fn u32_at(bytes: &[u8], at: usize) -> u32 {
    u32::from_le_bytes([bytes[at], bytes[at + 1], bytes[at + 2], bytes[at + 3]])
}

#[cfg(test)]
mod tests;
