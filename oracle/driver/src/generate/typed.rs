//! Programs in order that do something when they run.
//!
//! Each register keeps one type for as long as its function runs, and is loaded
//! before anything else. So whichever way the jumps go, operands have the right
//! types, and a run gets past its first instructions. Calls go to functions of
//! a higher rank, or down a counter, so that most runs come to an end.

mod code;
mod registers;
mod values;

use crate::edges::KINDS;
use crate::program::{Function, Program};
use crate::random::SplitMix64;
use crate::word::U32;

/// What a caller must know of a function.
struct Signature {
    params: Vec<u64>,
    result: u64,
    /// Whether the first parameter counts down the function's calls of itself.
    counted: bool,
    /// The number of registers, or 0 as long as it is not known.
    regs: u16,
}

impl Signature {
    /// The entry, rank 0, has no parameters: nobody gives it any.
    fn new(random: &mut SplitMix64, rank: usize) -> Self {
        let counted = rank > 0 && random.once_in(3);
        let mut params = Vec::new();
        if counted {
            params.push(U32);
        }
        if rank > 0 {
            let more = random.below(4);
            params.extend((0..more).map(|_| random.one_of(KINDS)));
        }
        Self {
            params,
            result: random.one_of(KINDS),
            counted,
            regs: 0,
        }
    }
}

/// A program of one to six functions.
pub fn program(random: &mut SplitMix64) -> Program {
    let count = random.one_of([1, 1, 2, 2, 3, 3, 4, 6]);
    let mut signatures: Vec<Signature> = (0..count)
        .map(|rank| Signature::new(random, rank))
        .collect();
    // The last rank first, so that a caller knows its callees' registers.
    let mut functions = Vec::with_capacity(count);
    for rank in (0..count).rev() {
        let function = function(random, &signatures, rank);
        signatures[rank].regs = function.regs;
        functions.push(function);
    }
    functions.reverse();
    renumber(random, functions)
}

fn function(random: &mut SplitMix64, signatures: &[Signature], rank: usize) -> Function {
    let registers = registers::plan(random, signatures, rank);
    let regs = registers.all.len() as u16;
    let name_id = random.next() as u32;
    let instrs = code::write(random, signatures, rank, registers);
    Function {
        name_id,
        regs,
        instrs,
    }
}

/// Gives each rank another number, so that the entry and the callees stand
/// anywhere in the table.
fn renumber(random: &mut SplitMix64, functions: Vec<Function>) -> Program {
    let mut ranked: Vec<(usize, Function)> = functions.into_iter().enumerate().collect();
    random.shuffle(&mut ranked);
    let mut numbers = vec![0; ranked.len()];
    for (number, (rank, _)) in ranked.iter().enumerate() {
        numbers[*rank] = number as u16;
    }
    let mut functions: Vec<Function> = ranked.into_iter().map(|(_, function)| function).collect();
    for record in functions.iter_mut().flat_map(|f| &mut f.instrs) {
        if record.opcode == 54 {
            record.b = numbers[usize::from(record.b)];
        }
    }
    Program {
        entry: numbers[0],
        functions,
    }
}
