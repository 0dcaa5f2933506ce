//! What the boundary's tests in Rust share: images made by hand, lent words, and calls side by side.

use std::process::ExitCode;
use std::thread;

pub const ANSWER_WORDS: usize = 5;
const BESIDE: usize = 2;
const THREADS: usize = 4;
const ROUNDS: usize = 500;
pub const FILL: u64 = 0xA5A5_A5A5_A5A5_A5A5;

#[rustfmt::skip]
pub const DOCUMENT_01: [u8; 64] = [
    0x01, 0x00, 0x00, 0x00, 0x01, 0x00, 0x00, 0x00, 0x02, 0x00, 0x00, 0x00, 0x18, 0x00, 0x00, 0x00,
    0x28, 0x00, 0x00, 0x00, 0x40, 0x00, 0x00, 0x00, 0x07, 0x00, 0x00, 0x00, 0x01, 0x00, 0x00, 0x00,
    0x00, 0x00, 0x00, 0x00, 0x02, 0x00, 0x00, 0x00, 0x06, 0x00, 0x00, 0x00, 0x00, 0x00, 0x00, 0x00,
    0xff, 0xff, 0xff, 0xff, 0x37, 0x00, 0x00, 0x00, 0x00, 0x00, 0x00, 0x00, 0x00, 0x00, 0x00, 0x00,
];

/// The number and all five words of an answer.
pub type Answer = (u64, [u64; ANSWER_WORDS]);

/// An answer whose words after `values` must be 0.
pub fn answer(number: u64, values: &[u64]) -> Answer {
    let mut words = [0; ANSWER_WORDS];
    words[..values.len()].copy_from_slice(values);
    (number, words)
}

/// Words to lend, with words beside them that must stay.
pub struct Lent(Vec<u64>);

impl Lent {
    pub fn new(count: usize) -> Self {
        Self(vec![FILL; BESIDE + count + BESIDE])
    }

    pub fn words(&mut self) -> &mut [u64] {
        let end = self.0.len() - BESIDE;
        &mut self.0[BESIDE..end]
    }

    /// The lent words, or nothing where a word beside them was changed.
    pub fn back(&self) -> Option<&[u64]> {
        let (before, rest) = self.0.split_at(BESIDE);
        let (words, after) = rest.split_at(rest.len() - BESIDE);
        let untouched = before.iter().chain(after).all(|word| *word == FILL);
        untouched.then_some(words)
    }
}

/// Opcode, a, b, c and w.
pub struct Instr(pub u8, pub u16, pub u16, pub u16, pub u32);

pub const RET: Instr = Instr(55, 0, 0, 0, 0);

/// Registers and instructions.
pub type Function<'a> = (u16, &'a [Instr]);

fn put_header(image: &mut Vec<u8>, entry: u16, functions: u32, instrs: u32) {
    let table = 24 + 16 * functions;
    image.extend(1u16.to_le_bytes());
    image.extend(entry.to_le_bytes());
    for word in [functions, instrs, 24, table, table + 12 * instrs] {
        image.extend(word.to_le_bytes());
    }
}

fn put_function(image: &mut Vec<u8>, regs: u16, first: u32, count: u32) {
    image.extend(7u32.to_le_bytes());
    image.extend(regs.to_le_bytes());
    image.extend([0, 0]);
    image.extend(first.to_le_bytes());
    image.extend(count.to_le_bytes());
}

fn put_instr(image: &mut Vec<u8>, Instr(op, a, b, c, w): &Instr) {
    image.extend([*op, 0]);
    for field in [a, b, c] {
        image.extend(field.to_le_bytes());
    }
    image.extend(w.to_le_bytes());
}

pub fn program(entry: u16, functions: &[Function]) -> Vec<u8> {
    let mut image = Vec::new();
    let instrs = functions.iter().map(|(_, code)| code.len() as u32).sum();
    put_header(&mut image, entry, functions.len() as u32, instrs);
    let mut first = 0;
    for (regs, code) in functions {
        put_function(&mut image, *regs, first, code.len() as u32);
        first += code.len() as u32;
    }
    for instr in functions.iter().flat_map(|(_, code)| *code) {
        put_instr(&mut image, instr);
    }
    image
}

/// Asks about all cases, alone and side by side. The header lets calls run so, on the same image too: were anything kept between
/// them, some answer would be another's. `is_right` prints what is wrong with a case.
pub fn run<C: Sync>(name: &str, cases: &[C], is_right: fn(&C) -> bool) -> ExitCode {
    let wrong_of = || cases.iter().filter(|case| !is_right(case)).count();
    let rounds = || (0..ROUNDS).map(|_| wrong_of()).sum::<usize>();
    let alone = wrong_of();
    let side_by_side: usize = thread::scope(|scope| {
        let threads: Vec<_> = (0..THREADS).map(|_| scope.spawn(rounds)).collect();
        // A thread that ended early counts as a wrong case.
        threads.into_iter().map(|one| one.join().unwrap_or(1)).sum()
    });
    let wrong = alone + side_by_side;
    println!(
        "boundary (Rust): {name}: {} cases, alone and {ROUNDS} times in {THREADS} threads, {wrong} wrong",
        cases.len()
    );
    ExitCode::from(u8::from(wrong != 0))
}
