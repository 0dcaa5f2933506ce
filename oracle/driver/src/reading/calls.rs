//! Frames: how a Call pushes one and a Ret drops it.

use semantic_core_runtime::CoreTrap;

use super::{End, Frame, Run, RECORD, UNIT_WORD};
use crate::image::{FunctionRow, Record};

impl Run<'_> {
    /// Everything is looked at before anything is written. dst is not: the
    /// callee's Ret does that.
    pub(super) fn call(&mut self, record: Record) -> Result<(), End> {
        if self.depth >= usize::from(self.limits.max_call_depth) {
            return Err(CoreTrap::CallDepthExceeded.into());
        }
        let callee = self.function(record.b)?;
        self.look_at_arguments(record, callee)?;
        let caller = self.running();
        let first = caller.first + u64::from(self.running_function().regs);
        self.look_for_room(first, callee.regs)?;
        self.set_place(caller.place + 1);
        self.push(Frame {
            function: record.b.into(),
            place: 0,
            dst: record.a.into(),
            first,
        });
        self.clear(first, callee.regs);
        let arguments = (caller.first + u64::from(record.c)) as usize;
        let count = record.w as usize;
        if count > 0 {
            let window = arguments..arguments + count;
            self.registers.copy_within(window, first as usize);
        }
        Ok(())
    }

    /// An empty window is never out of place.
    fn look_at_arguments(&self, record: Record, callee: FunctionRow) -> Result<(), CoreTrap> {
        let (base, count) = (u64::from(record.c), u64::from(record.w));
        let caller_regs = u64::from(self.running_function().regs);
        let passes = base + count > caller_regs || count > callee.regs.into();
        if count > 0 && passes {
            return Err(CoreTrap::InvalidRegister);
        }
        Ok(())
    }

    /// The dropped record stays, and its registers too.
    pub(super) fn ret(&mut self, record: Record) -> Result<(), End> {
        let value = self.read(record.a)?;
        if self.depth == 1 {
            return Err(End::Returned(value));
        }
        let parent = self.frame(self.depth - 2);
        let dst = self.register_of(parent, self.running().dst)?;
        self.depth -= 1;
        self.registers[dst] = value;
        Ok(())
    }

    /// Whether one more frame finds a record, and its registers words.
    pub(super) fn look_for_room(&self, first: u64, regs: u16) -> Result<(), End> {
        if self.depth >= self.frames.len() / RECORD {
            return Err(End::FrameRoom);
        }
        if first + u64::from(regs) > self.registers.len() as u64 {
            return Err(End::RegisterRoom);
        }
        Ok(())
    }

    /// Puts a record on top. There must be room for it.
    pub(super) fn push(&mut self, frame: Frame) {
        let Frame {
            function,
            place,
            dst,
            first,
        } = frame;
        let record = &mut self.frames[RECORD * self.depth..][..RECORD];
        record.copy_from_slice(&[function, place, dst, first]);
        self.depth += 1;
    }

    /// Makes Unit of so many registers.
    pub(super) fn clear(&mut self, first: u64, regs: u16) {
        let first = first as usize;
        self.registers[first..first + usize::from(regs)].fill(UNIT_WORD);
    }
}
