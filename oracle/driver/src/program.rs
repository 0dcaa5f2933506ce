//! A program in memory, and its image by document 01's layout.
//!
//! Operands may be out of place and sizes past any limit: whatever the fields
//! can hold is written. Faults of the image itself are made in its bytes.

use crate::image::{Record, Tables};

/// The 64-byte image of document 01, section "Runner", in hex.
pub const DOCUMENT_IMAGE: &str = "\
    010000000100000002000000180000002800000040000000\
    07000000010000000000000002000000\
    0600000000000000ffffffff\
    370000000000000000000000";

#[derive(Debug, Clone, PartialEq, Eq)]
pub struct Program {
    pub entry: u16,
    pub functions: Vec<Function>,
}

#[derive(Debug, Clone, PartialEq, Eq)]
pub struct Function {
    pub name_id: u32,
    pub regs: u16,
    pub instrs: Vec<Record>,
}

impl Program {
    /// A program of one function, which is the entry.
    pub fn single(regs: u16, instrs: Vec<Record>) -> Self {
        Self {
            entry: 0,
            functions: vec![Function::new(regs, instrs)],
        }
    }

    /// The program whose image has these tables.
    pub fn of_tables(tables: &Tables) -> Self {
        let mut instrs = tables.instructions.iter().copied();
        let functions = tables.functions.iter().map(|row| Function {
            name_id: row.name_id,
            regs: row.regs,
            instrs: instrs.by_ref().take(row.count as usize).collect(),
        });
        Self {
            entry: tables.entry,
            functions: functions.collect(),
        }
    }

    /// The well-formed image of this program.
    pub fn image(&self) -> Vec<u8> {
        let count = self.functions.iter().map(|f| f.instrs.len()).sum::<usize>();
        let mut bytes = header(self.entry, self.functions.len() as u32, count as u32);
        bytes.reserve(16 * self.functions.len() + 12 * count);
        let mut first = 0;
        for function in &self.functions {
            bytes.extend(function.name_id.to_le_bytes());
            bytes.extend(function.regs.to_le_bytes());
            bytes.extend(0u16.to_le_bytes());
            bytes.extend((first as u32).to_le_bytes());
            bytes.extend((function.instrs.len() as u32).to_le_bytes());
            first += function.instrs.len();
        }
        for record in self.functions.iter().flat_map(|f| &f.instrs) {
            bytes.extend(record_bytes(record));
        }
        bytes
    }
}

impl Function {
    /// A function whose name is of no interest: name_id 7, as in document 01.
    pub fn new(regs: u16, instrs: Vec<Record>) -> Self {
        Self {
            name_id: 7,
            regs,
            instrs,
        }
    }
}

/// A header whose offsets and length go with its counts. They are kept to 32
/// bits, since counts too large for that are wanted as well.
pub fn header(entry: u16, functions: u32, instructions: u32) -> Vec<u8> {
    let instruction_table = functions.wrapping_mul(16).wrapping_add(24);
    let total = instructions
        .wrapping_mul(12)
        .wrapping_add(instruction_table);
    let mut bytes = Vec::with_capacity(24);
    bytes.extend(1u16.to_le_bytes());
    bytes.extend(entry.to_le_bytes());
    bytes.extend(functions.to_le_bytes());
    bytes.extend(instructions.to_le_bytes());
    bytes.extend(24u32.to_le_bytes());
    bytes.extend(instruction_table.to_le_bytes());
    bytes.extend(total.to_le_bytes());
    bytes
}

fn record_bytes(record: &Record) -> [u8; 12] {
    let mut bytes = [record.opcode, record.small, 0, 0, 0, 0, 0, 0, 0, 0, 0, 0];
    bytes[2..4].copy_from_slice(&record.a.to_le_bytes());
    bytes[4..6].copy_from_slice(&record.b.to_le_bytes());
    bytes[6..8].copy_from_slice(&record.c.to_le_bytes());
    bytes[8..12].copy_from_slice(&record.w.to_le_bytes());
    bytes
}

#[cfg(test)]
mod tests {
    use super::*;
    use crate::generate;
    use crate::image::tables;
    use crate::records::plain;

    #[test]
    fn a_program_is_that_of_its_images_tables() {
        for number in 0..200 {
            let mut program = generate::program(7, number);
            program.functions[0].instrs.push(plain(56));
            let tables = tables(&program.image()).unwrap();
            assert_eq!(Program::of_tables(&tables), program);
        }
    }
}
