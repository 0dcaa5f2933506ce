//! Images for the tests: a program whose functions' names are of no interest.

use crate::image::Record;
use crate::program::{self, Program};

pub use crate::program::{header, DOCUMENT_IMAGE};
pub use crate::records::{call, jump, load, plain, ret, three};
pub use crate::text::hex;

/// One function of a sample: its register count and its instructions.
pub struct Function {
    pub regs: u16,
    pub instrs: Vec<Record>,
}

/// A well-formed image with name_id 7 for every function.
pub fn image(entry: u16, functions: &[Function]) -> Vec<u8> {
    let functions = functions
        .iter()
        .map(|f| program::Function::new(f.regs, f.instrs.clone()))
        .collect();
    Program { entry, functions }.image()
}

/// An image of one function, which is the entry.
pub fn single(regs: u16, instrs: Vec<Record>) -> Vec<u8> {
    Program::single(regs, instrs).image()
}
