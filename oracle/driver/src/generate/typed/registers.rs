//! What each register of a function is for.

use super::{values, Signature};
use crate::edges::KINDS;
use crate::random::SplitMix64;
use crate::word::{BOOL, I32, U32};

#[derive(Debug, Clone, Copy, PartialEq, Eq)]
pub enum Role {
    /// Read and written by any instruction.
    Variable,
    /// Keeps the payload it was loaded with.
    Constant(u32),
    /// Written only by the loop or the calls that it counts.
    Counter,
}

#[derive(Debug, Clone, Copy)]
pub struct Register {
    pub kind: u64,
    pub role: Role,
}

/// Registers that stand ready as the arguments of a Call.
#[derive(Debug, Clone, Copy)]
pub struct Window {
    pub callee: usize,
    pub base: u16,
    pub count: u16,
}

/// The registers of one loop: the counter, then its limit, then its step.
#[derive(Debug, Clone, Copy)]
pub struct Loop {
    pub kind: u64,
    pub counter: u16,
}

#[derive(Debug, Default)]
pub struct Registers {
    pub all: Vec<Register>,
    /// How many of them come with the call.
    pub params: usize,
    pub windows: Vec<Window>,
    pub loops: Vec<Loop>,
}

/// Registers that must stand side by side.
enum Group {
    Window(usize, Vec<u64>),
    Loop(u64, u32),
    Single(Register),
}

/// Plans a function's registers: the parameters first, the others in any
/// order, so that each sort of operand comes to stand in the last one.
pub fn plan(random: &mut SplitMix64, signatures: &[Signature], rank: usize) -> Registers {
    let own = &signatures[rank];
    let callees = callees(random, signatures, rank);
    let mut groups = Vec::new();
    for callee in &callees {
        let kinds = window_kinds(random, &signatures[*callee]);
        groups.push(Group::Window(*callee, kinds));
    }
    for _ in 0..random.one_of([0, 1, 1, 2]) {
        let limit = random.between(1, 5) as u32;
        groups.push(Group::Loop(random.one_of([I32, U32]), limit));
    }
    let mut kinds = vec![BOOL, own.result];
    kinds.extend(callees.iter().map(|callee| signatures[*callee].result));
    kinds.extend((0..random.below(5)).map(|_| random.one_of(KINDS)));
    add_singles(random, &kinds, &mut groups);
    random.shuffle(&mut groups);
    let mut registers = Registers::default();
    registers.add_params(own);
    groups.iter().for_each(|group| registers.add(group));
    registers.place_empty_windows(random);
    registers
}

/// Whom the function calls: itself if its calls are counted, some of a higher
/// rank, and seldom anyone, which may go round without end.
fn callees(random: &mut SplitMix64, signatures: &[Signature], rank: usize) -> Vec<usize> {
    let mut callees = Vec::new();
    if signatures[rank].counted {
        callees.push(rank);
    }
    let higher = signatures.len() - rank - 1;
    if higher > 0 {
        let some = random.between(1, 2);
        callees.extend((0..some).map(|_| rank + 1 + random.index(higher)));
    }
    if random.once_in(24) {
        callees.push(random.index(signatures.len()));
    }
    callees
}

/// The callee's parameters, and now and then more than it asks for, up to as
/// many as it has registers.
fn window_kinds(random: &mut SplitMix64, callee: &Signature) -> Vec<u64> {
    let mut kinds = callee.params.clone();
    let room = usize::from(callee.regs).saturating_sub(kinds.len());
    if room > 0 && random.once_in(6) {
        let more = random.index(room.min(4)) + 1;
        kinds.extend((0..more).map(|_| random.one_of(KINDS)));
    }
    kinds
}

/// For each kind a constant that may be divided by, and one or two variables.
fn add_singles(random: &mut SplitMix64, kinds: &[u64], groups: &mut Vec<Group>) {
    for (at, kind) in kinds.iter().copied().enumerate() {
        let mut add = |role| groups.push(Group::Single(Register { kind, role }));
        if kinds[..at].contains(&kind) {
            add(Role::Constant(values::any(random, kind)));
        } else {
            add(Role::Constant(values::step(random, kind)));
            add(Role::Variable);
        }
        if random.once_in(2) {
            add(Role::Variable);
        }
    }
}

impl Registers {
    fn add_params(&mut self, own: &Signature) {
        for (at, kind) in own.params.iter().copied().enumerate() {
            let counts = own.counted && at == 0;
            let role = if counts {
                Role::Counter
            } else {
                Role::Variable
            };
            self.all.push(Register { kind, role });
        }
        self.params = self.all.len();
    }

    fn add(&mut self, group: &Group) {
        let base = self.all.len() as u16;
        let mut push = |kind, role| self.all.push(Register { kind, role });
        match group {
            Group::Single(register) => push(register.kind, register.role),
            Group::Loop(kind, limit) => {
                push(*kind, Role::Counter);
                push(*kind, Role::Constant(*limit));
                push(*kind, Role::Constant(1));
                self.loops.push(Loop {
                    kind: *kind,
                    counter: base,
                });
            }
            Group::Window(callee, kinds) => {
                kinds.iter().for_each(|kind| push(*kind, Role::Variable));
                self.windows.push(Window {
                    callee: *callee,
                    base,
                    count: kinds.len() as u16,
                });
            }
        }
    }

    /// A window without arguments may begin anywhere, right past the last
    /// register too.
    fn place_empty_windows(&mut self, random: &mut SplitMix64) {
        let past = self.all.len() as u64;
        for window in self.windows.iter_mut().filter(|window| window.count == 0) {
            window.base = random.between(0, past) as u16;
        }
    }
}
