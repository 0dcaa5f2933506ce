//! The instructions of a function, written statement by statement.

use super::registers::{Loop, Register, Registers, Role, Window};
use super::{values, Signature};
use crate::edges::own_kind;
use crate::image::Record;
use crate::operate::one_operand;
use crate::random::SplitMix64;
use crate::records::{call, jump, jump_if, plain, ret, three, two};
use crate::word::{BOOL, FX, I32, QUAD, U32};

/// How deep branches and loops may stand in each other.
const DEPTH: u32 = 3;

/// Writes a function: loads, the base of a counted call, statements, and a Ret
/// as the last instruction.
pub fn write(
    random: &mut SplitMix64,
    signatures: &[Signature],
    rank: usize,
    mut registers: Registers,
) -> Vec<Record> {
    let loops = std::mem::take(&mut registers.loops);
    let mut writer = Writer {
        random,
        signatures,
        rank,
        registers,
        loops,
        code: Vec::new(),
        ahead: Vec::new(),
        depth: 0,
    };
    writer.loads();
    let base = writer.base_of_counted_calls();
    let statements = writer.random.one_of([0, 1, 4, 8, 12, 16]);
    writer.block(statements);
    writer.finish(base);
    writer.code
}

struct Writer<'a> {
    random: &'a mut SplitMix64,
    signatures: &'a [Signature],
    rank: usize,
    registers: Registers,
    /// Loops not yet written. Each is written once: one inside itself would
    /// set its own counter back and never end.
    loops: Vec<Loop>,
    code: Vec<Record>,
    /// Jumps whose target may be any instruction after them.
    ahead: Vec<usize>,
    depth: u32,
}

/// Statements answer with nothing if the function lacks registers for them.
type Written = Option<()>;

impl Writer<'_> {
    fn loads(&mut self) {
        let fresh = self.registers.params..self.registers.all.len();
        for at in fresh {
            let Register { kind, role } = self.registers.all[at];
            let payload = match role {
                Role::Constant(payload) => payload,
                Role::Counter => 0,
                Role::Variable => values::any(self.random, kind),
            };
            self.push(values::loading(kind, at as u16, payload));
        }
    }

    /// A counted function ends at 0: the jump to its last Ret.
    fn base_of_counted_calls(&mut self) -> Option<usize> {
        if !self.signatures[self.rank].counted {
            return None;
        }
        let zero = self.writable(U32)?;
        let cond = self.writable(BOOL)?;
        self.push(values::loading(U32, zero, 0));
        self.push(three(36, cond, 0, zero));
        Some(self.push(jump_if(52, cond, 0)))
    }

    fn finish(&mut self, base: Option<usize>) {
        let result = self.signatures[self.rank].result;
        let src = self.readable(result).unwrap_or(0);
        let last = self.push(ret(src));
        if let Some(from) = base {
            self.code[from].w = last as u32;
        }
        for from in std::mem::take(&mut self.ahead) {
            let target = self.random.between(from as u64 + 1, last as u64);
            self.code[from].w = target as u32;
        }
    }

    fn block(&mut self, statements: u64) {
        self.depth += 1;
        for _ in 0..statements {
            // One that lacks registers gives its turn to another.
            let _ = (0..4).find_map(|_| self.statement());
        }
        self.depth -= 1;
    }

    fn statement(&mut self) -> Written {
        match self.random.below(32) {
            0..=12 => self.operation(),
            13..=15 => self.load(),
            16 | 17 => self.copy(),
            18..=20 => self.branch(),
            21 | 22 => self.repeat(),
            23..=26 => self.call(),
            27 => self.assertion(),
            28 => self.skipped_trap(),
            29 => self.early_return(),
            30 => self.jump_ahead(),
            _ => self.add(plain(0)),
        }
    }

    fn operation(&mut self) -> Written {
        let opcode = self.random.between(9, 49) as u8;
        let kind = own_kind(opcode)?;
        let careless = self.random.once_in(6);
        match opcode {
            23..=26 | 32..=35 | 41..=44 if !careless => self.arithmetic(opcode, kind),
            _ => {
                let dst = self.writable(result_kind(opcode, kind))?;
                let lhs = self.readable(kind)?;
                let rhs = self.readable(kind)?;
                self.add(match one_operand(opcode) {
                    true => two(opcode, dst, lhs),
                    false => three(opcode, dst, lhs, rhs),
                })
            }
        }
    }

    /// Arithmetic whose result mostly fits: a small constant on the right, one
    /// on the left too where the result is a product, and no difference of
    /// unsigned numbers that would be below 0.
    fn arithmetic(&mut self, opcode: u8, kind: u64) -> Written {
        let dst = self.writable(kind)?;
        let rhs = self.small_constant(kind)?;
        let lhs = match opcode {
            25 | 34 | 43 => self.small_constant(kind)?,
            _ => self.readable(kind)?,
        };
        if opcode == 33 {
            let cond = self.writable(BOOL)?;
            self.push(three(40, cond, lhs, rhs));
            self.push(jump_if(53, cond, self.here() + 2));
        }
        self.add(three(opcode, dst, lhs, rhs))
    }

    fn load(&mut self) -> Written {
        let at = self.choose(|register| register.role == Role::Variable)?;
        let kind = self.registers.all[usize::from(at)].kind;
        let payload = values::any(self.random, kind);
        self.add(values::loading(kind, at, payload))
    }

    fn copy(&mut self) -> Written {
        let dst = self.choose(|register| register.role == Role::Variable)?;
        let src = self.readable(self.registers.all[usize::from(dst)].kind)?;
        self.add(two(50, dst, src))
    }

    /// A block that a jump passes over, with another for that case or without.
    fn branch(&mut self) -> Written {
        if self.depth > DEPTH {
            return None;
        }
        let from = self.jump_on_any()?;
        self.some_statements();
        if self.random.once_in(2) {
            let over = self.push(jump(0));
            self.code[from].w = self.here();
            self.some_statements();
            self.code[over].w = self.here();
        } else {
            self.code[from].w = self.here();
        }
        Some(())
    }

    /// A loop that counts up to its limit; one in forty has no end.
    fn repeat(&mut self) -> Written {
        if self.depth > DEPTH {
            return None;
        }
        let Loop { kind, counter } = self.loops.pop()?;
        let cond = self.writable(BOOL)?;
        self.push(values::loading(kind, counter, 0));
        let top = self.here();
        self.some_statements();
        if self.random.once_in(40) {
            return self.add(jump(top));
        }
        let (limit, step) = (counter + 1, counter + 2);
        let (add, less, at_least) = if kind == I32 {
            (23, 28, 31)
        } else {
            (32, 37, 40)
        };
        self.push(three(add, counter, counter, step));
        if self.random.once_in(2) {
            self.push(three(less, cond, counter, limit));
            self.add(jump_if(52, cond, top))
        } else {
            self.push(three(at_least, cond, counter, limit));
            self.add(jump_if(53, cond, top))
        }
    }

    fn call(&mut self) -> Written {
        let windows = std::mem::take(&mut self.registers.windows);
        let window = self.random.pick(&windows);
        self.registers.windows = windows;
        let window = window?;
        let dst = self.writable(self.signatures[window.callee].result)?;
        self.arguments(window);
        let Window {
            callee,
            base,
            count,
        } = window;
        self.add(call(dst, callee as u16, base, count.into()))
    }

    /// The counter of a counted function first, one less if it calls itself;
    /// the rest as they are or from other registers.
    fn arguments(&mut self, window: Window) {
        let mut first = window.base;
        if self.signatures[window.callee].counted {
            if window.callee == self.rank {
                self.push(values::loading(U32, first, 1));
                self.push(three(33, first, 0, first));
            } else {
                let deep = self.random.once_in(30);
                let calls = if deep {
                    5_000
                } else {
                    self.random.below(6) as u32
                };
                self.push(values::loading(U32, first, calls));
            }
            first += 1;
        }
        for at in first..window.base + window.count {
            let kind = self.registers.all[usize::from(at)].kind;
            if let (true, Some(src)) = (self.random.once_in(2), self.readable(kind)) {
                self.push(two(50, at, src));
            }
        }
    }

    /// Mostly of what holds: a value is equal to itself.
    fn assertion(&mut self) -> Written {
        if self.random.once_in(8) {
            let cond = self.readable(BOOL)?;
            return self.add(Record {
                a: cond,
                ..plain(2)
            });
        }
        let (opcode, kind) =
            self.random
                .one_of([(13, QUAD), (21, BOOL), (27, I32), (38, U32), (49, FX)]);
        let value = self.readable(kind)?;
        let cond = self.writable(BOOL)?;
        self.push(three(opcode, cond, value, value));
        self.add(Record {
            a: cond,
            ..plain(2)
        })
    }

    /// A Trap that a jump mostly passes over.
    fn skipped_trap(&mut self) -> Written {
        let known = |register: &Register| {
            register.kind == BOOL && matches!(register.role, Role::Constant(_))
        };
        let at = self.choose(known)?;
        let truth = self.registers.all[usize::from(at)].role == Role::Constant(1);
        let reversed = self.random.once_in(8);
        let opcode = if truth != reversed { 52 } else { 53 };
        self.push(jump_if(opcode, at, self.here() + 2));
        self.add(plain(1))
    }

    fn early_return(&mut self) -> Written {
        let src = self.readable(self.signatures[self.rank].result)?;
        let from = self.jump_on_any()?;
        self.push(ret(src));
        self.code[from].w = self.here();
        Some(())
    }

    fn jump_ahead(&mut self) -> Written {
        let from = match self.random.once_in(4) {
            true => self.push(jump(0)),
            false => self.jump_on_any()?,
        };
        self.ahead.push(from);
        Some(())
    }

    fn some_statements(&mut self) {
        let statements = self.random.between(1, 3);
        self.block(statements);
    }

    /// A jump on some condition, its target still open.
    fn jump_on_any(&mut self) -> Option<usize> {
        let cond = self.readable(BOOL)?;
        let opcode = self.random.one_of([52, 53]);
        Some(self.push(jump_if(opcode, cond, 0)))
    }

    fn readable(&mut self, kind: u64) -> Option<u16> {
        self.choose(|register| register.kind == kind)
    }

    fn writable(&mut self, kind: u64) -> Option<u16> {
        self.choose(|register| register.kind == kind && register.role == Role::Variable)
    }

    fn small_constant(&mut self, kind: u64) -> Option<u16> {
        self.choose(|register| match register.role {
            Role::Constant(payload) => {
                register.kind == kind && payload != 0 && values::is_small(kind, payload)
            }
            _ => false,
        })
    }

    /// Any one of the registers that are wanted, each with the same chance.
    fn choose(&mut self, wanted: impl Fn(&Register) -> bool) -> Option<u16> {
        let all = &self.registers.all;
        let found = all.iter().filter(|register| wanted(register)).count();
        let chosen = self.random.index(found.max(1));
        let mut places = (0..all.len()).filter(|at| wanted(&all[*at]));
        places.nth(chosen).map(|at| at as u16)
    }

    fn here(&self) -> u32 {
        self.code.len() as u32
    }

    /// Adds an instruction and says where it stands.
    fn push(&mut self, record: Record) -> usize {
        self.code.push(record);
        self.code.len() - 1
    }

    fn add(&mut self, record: Record) -> Written {
        self.code.push(record);
        Some(())
    }
}

/// Comparisons and questions give a Bool, the others their own kind.
fn result_kind(opcode: u8, kind: u64) -> u64 {
    match opcode {
        13..=17 | 27..=31 | 36..=40 | 45..=49 => BOOL,
        _ => kind,
    }
}
