//! The programs whose runs are timed. Each counts in a loop, returns what it
//! counted and takes about a million steps.

use oracle::image::Record;
use oracle::program::{Function, Program};
use oracle::records::{call, jump, jump_if, load, plain, ret, three, two};

pub struct Workload {
    pub name: &'static str,
    pub program: Program,
}

pub fn all() -> [Workload; 3] {
    [
        Workload {
            name: "counting",
            program: counting(),
        },
        Workload {
            name: "calls",
            program: calls(),
        },
        Workload {
            name: "mixed",
            program: mixed(),
        },
    ]
}

const LOAD_UNIT: u8 = 3;
const LOAD_QUAD: u8 = 4;
const LOAD_BOOL: u8 = 5;
const LOAD_I32: u8 = 6;
const LOAD_U32: u8 = 7;
const LOAD_FX: u8 = 8;
const I32_ADD: u8 = 23;
const I32_SUB: u8 = 24;
const I32_EQ: u8 = 27;
const I32_LT: u8 = 28;
const I32_GE: u8 = 31;
const MOVE: u8 = 50;
const JUMP_IF_TRUE: u8 = 52;
const JUMP_IF_FALSE: u8 = 53;

/// Rounds of a loop of ten instructions, a million of them all but ten.
const ROUNDS: u32 = 99_999;

fn load_i32(dst: u16, value: u32) -> Record {
    load(LOAD_I32, dst, 0, value)
}

fn assert(cond: u16) -> Record {
    Record {
        a: cond,
        ..plain(2)
    }
}

/// Nine loads, ten instructions in a loop, a Ret: exactly 1,000,000 steps. One
/// counter goes up and one down, and their sum has to stay.
fn counting() -> Program {
    let [up, one, bound, copy, down, zero, sum, right, more] = [0, 1, 2, 3, 4, 5, 6, 7, 8];
    let instrs = vec![
        load_i32(up, 0),
        load_i32(one, 1),
        load_i32(bound, ROUNDS),
        load_i32(copy, 0),
        load_i32(down, ROUNDS),
        load_i32(zero, 0),
        load_i32(sum, 0),
        load(LOAD_BOOL, right, 0, 0),
        load(LOAD_BOOL, more, 0, 0),
        three(I32_ADD, up, up, one),
        two(MOVE, copy, up),
        three(I32_SUB, down, down, one),
        three(I32_GE, right, down, zero),
        assert(right),
        three(I32_ADD, sum, copy, down),
        three(I32_EQ, right, sum, bound),
        assert(right),
        three(I32_LT, more, up, bound),
        jump_if(JUMP_IF_TRUE, more, 9),
        ret(up),
    ];
    Program::single(9, instrs)
}

/// Two calls in each round of ten steps, one inside the other, with two
/// arguments each; the inner function adds them.
fn calls() -> Program {
    let [count, one, bound, more, sum] = [0, 1, 2, 3, 4];
    let main = vec![
        load_i32(count, 0),
        load_i32(one, 1),
        load_i32(bound, ROUNDS),
        call(sum, 1, count, 2),
        two(MOVE, count, sum),
        three(I32_LT, more, count, bound),
        jump_if(JUMP_IF_TRUE, more, 3),
        ret(count),
    ];
    let outer = vec![call(2, 2, 0, 2), two(MOVE, 0, 2), ret(0)];
    let inner = vec![three(I32_ADD, 2, 0, 1), two(MOVE, 0, 2), ret(0)];
    Program {
        entry: 0,
        functions: vec![
            Function::new(5, main),
            Function::new(3, outer),
            Function::new(3, inner),
        ],
    }
}

/// Registers of `mixed`. Those of the loop's control are left alone by the
/// groups of opcodes; `TEST` is where comparisons go.
mod register {
    pub const COUNT: u16 = 0;
    pub const ONE: u16 = 1;
    pub const BOUND: u16 = 2;
    pub const MORE: u16 = 3;
    pub const TEST: u16 = 4;
    pub const TRUE: u16 = 5;
    pub const FALSE: u16 = 6;
    pub const QUADS: [u16; 3] = [7, 8, 9];
    pub const I32S: [u16; 3] = [10, 11, 12];
    pub const U32S: [u16; 3] = [13, 14, 15];
    pub const FXS: [u16; 3] = [16, 17, 18];
    pub const UNIT: u16 = 19;
    pub const NUMBER: u16 = 20;
}
use register::*;

const MIXED_ROUNDS: u32 = 17_241;

/// Every opcode in one loop; the Trap is jumped over.
fn mixed() -> Program {
    let mut main = mixed_start();
    let top = main.len() as u32;
    main.extend(loads());
    main.extend(quads());
    main.extend(bools());
    main.extend(numbers(I32_ADD, I32S));
    main.extend(numbers(32, U32S));
    main.extend(numbers(41, FXS));
    main.extend(jumps(main.len() as u32));
    main.extend([
        two(MOVE, I32S[2], I32S[0]),
        assert(TRUE),
        call(COUNT, 1, COUNT, 2),
        three(I32_LT, MORE, COUNT, BOUND),
        jump_if(JUMP_IF_TRUE, MORE, top),
        ret(FXS[0]),
    ]);
    let add = vec![three(I32_ADD, 2, 0, 1), ret(2)];
    Program {
        entry: 0,
        functions: vec![Function::new(NUMBER, main), Function::new(3, add)],
    }
}

/// What the rounds start from. Each type's first register is what `numbers`
/// adds to from round to round.
fn mixed_start() -> Vec<Record> {
    vec![
        load_i32(COUNT, 0),
        load_i32(ONE, 1),
        load_i32(BOUND, MIXED_ROUNDS),
        load(LOAD_QUAD, QUADS[0], 0, 0),
        load_i32(I32S[0], 0),
        load(LOAD_U32, U32S[0], 0, 0),
        load(LOAD_FX, FXS[0], 0, 0),
    ]
}

fn loads() -> Vec<Record> {
    vec![
        load(LOAD_UNIT, UNIT, 0, 0),
        load(LOAD_QUAD, QUADS[1], 2, 0),
        load(LOAD_BOOL, TRUE, 1, 0),
        load(LOAD_BOOL, FALSE, 0, 0),
        load_i32(I32S[1], 7),
        load(LOAD_U32, U32S[1], 0, 9),
        load(LOAD_FX, FXS[1], 0, 1_000),
    ]
}

fn quads() -> Vec<Record> {
    let [kept, fixed, other] = QUADS;
    vec![
        two(9, other, kept),
        three(10, other, other, fixed),
        three(11, other, other, fixed),
        three(12, kept, kept, other),
        three(13, TEST, kept, other),
        three(14, TEST, kept, other),
        two(15, TEST, kept),
        two(16, TEST, kept),
        two(17, TEST, kept),
    ]
}

fn bools() -> Vec<Record> {
    vec![
        two(18, TEST, TEST),
        three(19, TEST, TEST, TRUE),
        three(20, TEST, TEST, FALSE),
        three(21, TEST, TEST, TRUE),
        three(22, TEST, TEST, FALSE),
    ]
}

/// The nine opcodes of a type of numbers, from its addition on: four operations
/// and five comparisons. The first register grows by the second in each round;
/// what is multiplied is divided again, so nothing leaves its type.
fn numbers(first: u8, [kept, fixed, other]: [u16; 3]) -> Vec<Record> {
    let mut group = vec![
        three(first, kept, kept, fixed),
        three(first + 2, other, kept, fixed),
        three(first + 3, other, other, fixed),
        three(first + 1, other, other, other),
    ];
    group.extend((4..9).map(|offset| three(first + offset, TEST, other, kept)));
    group
}

/// Jumps ahead, of which `at` is the first one's place: one that is taken, one
/// that hangs on `TEST`, and one over a Trap.
fn jumps(at: u32) -> [Record; 5] {
    [
        jump_if(JUMP_IF_FALSE, FALSE, at + 1),
        jump_if(JUMP_IF_FALSE, TEST, at + 3),
        plain(0),
        jump(at + 5),
        plain(1),
    ]
}

#[cfg(test)]
mod tests;
