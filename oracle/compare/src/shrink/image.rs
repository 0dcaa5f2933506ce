//! Ways to make an image smaller: as a program where its tables can be read,
//! and else as bytes.

use std::ops::Range;

use oracle::image::tables;
use oracle::program::Program;

use super::numbers::parts;
use super::program;

#[derive(Debug, Clone, PartialEq, Eq)]
pub enum Edit {
    Program(program::Edit),
    /// These bytes are left out.
    Cut(Range<usize>),
    /// These bytes are 0.
    Zero(Range<usize>),
}

/// What has a fault in its header or functions is no program, and becomes
/// smaller byte by byte. Faults in instructions do not matter here.
pub fn edits(image: &[u8]) -> Vec<Edit> {
    match read(image) {
        Some(program) => {
            let edits = program::edits(&program).into_iter();
            edits.map(Edit::Program).collect()
        }
        None => {
            let parts = parts(image.len());
            let cuts = parts.iter().cloned().map(Edit::Cut);
            cuts.chain(parts.iter().cloned().map(Edit::Zero)).collect()
        }
    }
}

/// What an edit makes of the image; nothing where that is no change.
pub fn edited(image: &[u8], edit: &Edit) -> Option<Vec<u8>> {
    let mut copy = image.to_vec();
    match edit {
        Edit::Program(edit) => {
            let smaller = program::edited(&read(image)?, edit)?;
            copy = smaller.image();
        }
        Edit::Cut(part) => drop(copy.drain(part.clone())),
        Edit::Zero(part) => copy[part.clone()].fill(0),
    }
    (copy != image).then_some(copy)
}

fn read(image: &[u8]) -> Option<Program> {
    Some(Program::of_tables(&tables(image).ok()?))
}
