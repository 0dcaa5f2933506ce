//! How far a run reaches: what it would need of lent memory, and which
//! instructions it begins.

use crate::image;
use crate::reading::{Limits, Run, RECORD};
use crate::verdict::Answer;

pub const OPCODES: usize = 56;
const CALL: u8 = 54;

/// How many words are lent.
#[derive(Debug, Clone, Copy, PartialEq, Eq)]
pub struct Room {
    pub frames: usize,
    pub registers: usize,
}

/// A run that had all the room it wanted.
#[derive(Debug, Clone)]
pub struct Measure {
    pub answer: Answer,
    /// The frames that stood at the same time at most.
    pub deepest: usize,
    /// The words that it came to use: with one less it is refused.
    pub used: Room,
    pub begun: [u64; OPCODES],
    /// How many Calls with arguments it begins.
    pub passing: u64,
    /// Where it ended, the running frame's place was its function's length.
    pub at_length: bool,
}

/// Lent memory to measure in, kept from one run to the next. What stands in
/// it before a run is of no account.
#[derive(Debug, Default)]
pub struct Scratch {
    frames: Vec<u64>,
    registers: Vec<u64>,
}

impl Scratch {
    /// Measures a run by the reading. An image with a fault reaches nothing.
    /// The room goes by the fuel that the run is known to use; one that uses
    /// more is refused, and its answer is another.
    pub fn measure(&mut self, image: &[u8], limits: Limits, used: u64) -> Measure {
        let mut measure = Measure {
            answer: Answer::new(0, &[]),
            deepest: 0,
            used: Room {
                frames: 0,
                registers: 0,
            },
            begun: [0; OPCODES],
            passing: 0,
            at_length: false,
        };
        let program = match image::check(image) {
            Ok(program) => program,
            Err(fault) => {
                measure.answer = fault.into();
                return measure;
            }
        };
        let largest = program.functions.iter().map(|f| f.regs).max();
        let room = enough(limits.max_call_depth, used, largest.unwrap_or(0));
        let frames = at_least(&mut self.frames, room.frames);
        let registers = at_least(&mut self.registers, room.registers);
        let mut run = Run::new(&program, limits, frames, registers);
        measure.answer = run.play(|run| {
            measure.look_at(run);
            run.round()
        });
        measure
    }
}

impl Measure {
    fn look_at(&mut self, run: &Run) {
        let top = run.running().first as usize + usize::from(run.running_function().regs);
        self.deepest = self.deepest.max(run.depth);
        self.at_length = run.running().place == u64::from(run.running_function().count);
        self.used.frames = RECORD * self.deepest;
        self.used.registers = self.used.registers.max(top);
        if let (Some(record), true) = (run.instruction(), run.used < run.limits.fuel) {
            self.begun[usize::from(record.opcode)] += 1;
            self.passing += u64::from(record.opcode == CALL && record.w > 0);
        }
    }
}

/// Document 01's enough room. Each frame but the first costs a unit of fuel,
/// which may make it less.
pub fn enough(max_call_depth: u16, used: u64, largest: u16) -> Room {
    let by_depth = u64::from(max_call_depth.max(1));
    let records = by_depth.min(used.saturating_add(1)) as usize;
    Room {
        frames: RECORD * records,
        registers: records * usize::from(largest),
    }
}

fn at_least(words: &mut Vec<u64>, length: usize) -> &mut [u64] {
    if words.len() < length {
        words.resize(length, 0);
    }
    words
}
