//! An executable reading of document 01's sections "One step" and "Lent frames
//! and registers": what a run answers, and what it leaves in lent memory.
//!
//! It is written from those sections alone, apart from the Rust and from any
//! engine. The Rust takes its memory from the heap, so what stands in lent
//! memory, and the refusals for want of it, can be held only to this.

mod calls;
mod values;

use semantic_core_runtime::CoreTrap;

use crate::digest::digest;
use crate::image::{self, FunctionRow, Record, Tables};
use crate::verdict::Answer;

/// The words of a frame record.
pub const RECORD: usize = 4;
/// A register that holds Unit.
const UNIT_WORD: u64 = 0;

/// What a run may use up, besides lent memory.
#[derive(Debug, Clone, Copy, PartialEq, Eq, Hash)]
pub struct Limits {
    pub fuel: u64,
    pub max_call_depth: u16,
}

/// How a run comes to its end.
#[derive(Debug, Clone, Copy, PartialEq, Eq)]
pub enum End {
    /// Holds the value's register word.
    Returned(u64),
    Trapped(CoreTrap),
    FrameRoom,
    RegisterRoom,
}

impl From<CoreTrap> for End {
    fn from(trap: CoreTrap) -> Self {
        Self::Trapped(trap)
    }
}

impl End {
    /// A trap is a result, with value Unit.
    fn answer(self, used: u64) -> Answer {
        match self {
            Self::Returned(word) => done(0, word, used),
            Self::Trapped(trap) => done(1 + u64::from(trap.code()), UNIT_WORD, used),
            Self::FrameRoom => Answer::new(6, &[used]),
            Self::RegisterRoom => Answer::new(7, &[used]),
        }
    }
}

fn done(status: u64, word: u64, used: u64) -> Answer {
    let (kind, payload) = (word >> 32, word & 0xffff_ffff);
    let digest = digest([status, kind, payload, used]);
    Answer::new(0, &[status, kind, payload, used, digest])
}

/// One frame record, its fields in the order in which they stand.
#[derive(Debug, Clone, Copy, PartialEq, Eq)]
pub struct Frame {
    pub function: u64,
    pub place: u64,
    pub dst: u64,
    pub first: u64,
}

/// A run: the program, its limits, lent memory, and how far it has come.
///
/// All but the two counts stands in lent memory, and they are open to whoever
/// wants to look on or to play a run by other rules.
#[derive(Debug)]
pub struct Run<'a> {
    program: &'a Tables,
    pub limits: Limits,
    pub frames: &'a mut [u64],
    pub registers: &'a mut [u64],
    /// How many frames stand.
    pub depth: usize,
    /// How many instructions were begun.
    pub used: u64,
}

/// The answer to an image in bytes, which leaves in lent memory what a run of
/// it leaves there.
pub fn answer(image: &[u8], limits: Limits, frames: &mut [u64], registers: &mut [u64]) -> Answer {
    match image::check(image) {
        Ok(program) => Run::new(&program, limits, frames, registers).play(Run::round),
        Err(fault) => fault.into(),
    }
}

impl<'a> Run<'a> {
    pub fn new(
        program: &'a Tables,
        limits: Limits,
        frames: &'a mut [u64],
        registers: &'a mut [u64],
    ) -> Self {
        Self {
            program,
            limits,
            frames,
            registers,
            depth: 0,
            used: 0,
        }
    }

    /// Enters the entry and plays round after round up to the end.
    pub fn play(&mut self, mut round: impl FnMut(&mut Self) -> Result<(), End>) -> Answer {
        let mut done = self.enter();
        loop {
            match done {
                Ok(()) => done = round(self),
                Err(end) => return end.answer(self.used),
            }
        }
    }

    /// The entry frame, which no depth limit keeps out.
    fn enter(&mut self) -> Result<(), End> {
        let entry = self.program.entry;
        let regs = self.function(entry)?.regs;
        self.look_for_room(0, regs)?;
        self.push(Frame {
            function: entry.into(),
            place: 0,
            dst: 0,
            first: 0,
        });
        self.clear(0, regs);
        Ok(())
    }

    /// One round. It gives the run's end, or nothing if the run goes on.
    pub fn round(&mut self) -> Result<(), End> {
        let record = self.instruction().ok_or(CoreTrap::InvalidPc)?;
        self.charge()?;
        self.act(record)
    }

    /// The instruction that is to run; none at or past the length.
    pub fn instruction(&self) -> Option<Record> {
        let function = self.running_function();
        let place = self.running().place;
        if place >= function.count.into() {
            return None;
        }
        let at = u64::from(function.first) + place;
        Some(self.program.instructions[at as usize])
    }

    /// One unit, or the trap with the whole limit used.
    fn charge(&mut self) -> Result<(), CoreTrap> {
        if self.used == self.limits.fuel {
            return Err(CoreTrap::FuelExceeded);
        }
        self.used += 1;
        Ok(())
    }

    fn act(&mut self, record: Record) -> Result<(), End> {
        match record.opcode {
            0 => {}
            1 => return Err(CoreTrap::ExplicitTrap.into()),
            2 => self.assert(record)?,
            51..=53 => return Ok(self.jump(record)?),
            54 => return self.call(record),
            55 => return self.ret(record),
            _ => self.operate(record)?,
        }
        self.set_place(self.running().place + 1);
        Ok(())
    }

    fn assert(&self, record: Record) -> Result<(), CoreTrap> {
        match values::truth(self.read(record.a)?)? {
            true => Ok(()),
            false => Err(CoreTrap::AssertFailed),
        }
    }

    /// Loads, operations and Move: the result first, then dst.
    fn operate(&mut self, record: Record) -> Result<(), CoreTrap> {
        let result = values::result(record, |register| self.read(register))?;
        let at = self.register(record.a)?;
        self.registers[at] = result;
        Ok(())
    }

    fn jump(&mut self, record: Record) -> Result<(), CoreTrap> {
        let taken = match record.opcode {
            51 => true,
            52 => values::truth(self.read(record.a)?)?,
            _ => !values::truth(self.read(record.a)?)?,
        };
        let next = self.running().place + 1;
        self.set_place(if taken { record.w.into() } else { next });
        Ok(())
    }

    fn read(&self, register: u16) -> Result<u64, CoreTrap> {
        Ok(self.registers[self.register(register)?])
    }

    /// Where a register of the running frame stands.
    fn register(&self, register: u16) -> Result<usize, CoreTrap> {
        self.register_of(self.running(), register.into())
    }

    fn register_of(&self, frame: Frame, register: u64) -> Result<usize, CoreTrap> {
        if register >= self.function_of(frame).regs.into() {
            return Err(CoreTrap::InvalidRegister);
        }
        Ok((frame.first + register) as usize)
    }

    fn function(&self, number: u16) -> Result<FunctionRow, CoreTrap> {
        let row = self.program.functions.get(usize::from(number));
        row.copied().ok_or(CoreTrap::InvalidFunction)
    }

    fn function_of(&self, frame: Frame) -> FunctionRow {
        self.program.functions[frame.function as usize]
    }

    pub fn running_function(&self) -> FunctionRow {
        self.function_of(self.running())
    }

    /// The record on top.
    pub fn running(&self) -> Frame {
        self.frame(self.depth - 1)
    }

    pub fn frame(&self, number: usize) -> Frame {
        let words = &self.frames[RECORD * number..][..RECORD];
        Frame {
            function: words[0],
            place: words[1],
            dst: words[2],
            first: words[3],
        }
    }

    pub fn set_place(&mut self, place: u64) {
        self.frames[RECORD * (self.depth - 1) + 1] = place;
    }
}

#[cfg(test)]
mod tests;
