//! Which fields of a record an opcode uses, by document 01's section "Image".

use crate::image::Record;

#[derive(Debug, Clone, Copy, PartialEq, Eq)]
pub enum Field {
    Small,
    A,
    B,
    C,
    W,
}

use Field::{Small, A, B, C, W};

pub const FIELDS: [Field; 5] = [Small, A, B, C, W];

impl Field {
    /// Puts a value into the field, cut to its width.
    pub fn set(self, record: &mut Record, value: u32) {
        match self {
            Small => record.small = value as u8,
            A => record.a = value as u16,
            B => record.b = value as u16,
            C => record.c = value as u16,
            W => record.w = value,
        }
    }

    pub fn get(self, record: &Record) -> u32 {
        match self {
            Small => record.small.into(),
            A => record.a.into(),
            B => record.b.into(),
            C => record.c.into(),
            W => record.w,
        }
    }

    /// Where the field stands in the record's bytes, and its width.
    pub fn place(self) -> (usize, usize) {
        match self {
            Small => (1, 1),
            A => (2, 2),
            B => (4, 2),
            C => (6, 2),
            W => (8, 4),
        }
    }
}

/// The fields that the opcode uses; none for one that does not exist.
pub fn used(opcode: u8) -> &'static [Field] {
    match opcode {
        2 | 3 | 55 => &[A],
        4 | 5 => &[Small, A],
        6..=8 | 52 | 53 => &[A, W],
        9 | 15..=18 | 50 => &[A, B],
        10..=14 | 19..=49 => &[A, B, C],
        51 => &[W],
        54 => &[A, B, C, W],
        _ => &[],
    }
}

/// The fields that must name a register. A Call's arg_base is none of them: it
/// may stand right past the registers.
pub fn registers(opcode: u8) -> &'static [Field] {
    match opcode {
        2..=8 | 52..=55 => &[A],
        9 | 15..=18 | 50 => &[A, B],
        10..=14 | 19..=49 => &[A, B, C],
        _ => &[],
    }
}

/// Whether w is the number of an instruction.
pub fn jumps(opcode: u8) -> bool {
    matches!(opcode, 51..=53)
}

#[cfg(test)]
mod tests {
    use super::*;
    use crate::records::plain;

    /// The table and the reader say the same of every field.
    #[test]
    fn the_used_fields_are_those_the_reader_takes() {
        for opcode in 0..=55 {
            for field in FIELDS {
                let mut record = plain(opcode);
                field.set(&mut record, 1);
                let taken = record.instruction().is_some();
                assert_eq!(taken, used(opcode).contains(&field), "{opcode} {field:?}");
            }
        }
    }

    #[test]
    fn what_is_set_is_got() {
        let mut record = plain(0);
        for (value, field) in (1..).zip(FIELDS) {
            field.set(&mut record, value);
        }
        assert_eq!(FIELDS.map(|field| field.get(&record)), [1, 2, 3, 4, 5]);
    }

    #[test]
    fn register_fields_are_used_ones() {
        for opcode in 0..=255 {
            let all = used(opcode);
            assert!(registers(opcode).iter().all(|field| all.contains(field)));
        }
    }
}
