//! `knit_validate` as a caller in Rust sees it, linked with the archive.

use std::process::ExitCode;

use boundary::{answer, program, Answer, Instr, Lent, ANSWER_WORDS, DOCUMENT_01, RET};

extern "C" {
    fn knit_validate(
        image: *const u8,
        image_len: usize,
        max_registers: u16,
        max_functions: u16,
        max_call_depth: u16,
        max_instrs_per_function: u32,
        max_fuel: u64,
        answer: *mut u64,
    ) -> u64;
}

#[derive(Clone, Copy)]
struct Limits {
    registers: u16,
    functions: u16,
    call_depth: u16,
    instrs: u32,
    fuel: u64,
}

const SAFE: Limits = Limits {
    registers: 256,
    functions: 256,
    call_depth: 64,
    instrs: 8_192,
    fuel: 1_000_000,
};

/// Calls the function safely: a slice and an array keep every promise that its header asks of a caller.
/// Nothing where a word beside the answer was changed.
fn validate(image: &[u8], limits: Limits) -> Option<Answer> {
    let mut lent = Lent::new(ANSWER_WORDS);
    // SAFETY: the pointers come from a slice and an array that outlive the call, do not overlap, and are never null.
    let number = unsafe {
        knit_validate(
            image.as_ptr(),
            image.len(),
            limits.registers,
            limits.functions,
            limits.call_depth,
            limits.instrs,
            limits.fuel,
            lent.words().as_mut_ptr(),
        )
    };
    lent.back().map(|words| answer(number, words))
}

fn call_itself(arg_base: u16) -> Vec<Instr> {
    vec![Instr(54, 0, 0, arg_base, 0), RET]
}

struct Case {
    name: &'static str,
    image: Vec<u8>,
    limits: Limits,
    expected: Answer,
}

/// The words after `values` must be 0.
fn case(name: &'static str, image: Vec<u8>, limits: Limits, number: u64, values: &[u64]) -> Case {
    let expected = answer(number, values);
    Case {
        name,
        image,
        limits,
        expected,
    }
}

#[rustfmt::skip] // one line for each case
fn cases() -> Vec<Case> {
    let document = || DOCUMENT_01.to_vec();
    let longer = [&DOCUMENT_01[..], &[0]].concat();
    let no_fuel = Limits { fuel: 0, ..SAFE };
    let much_fuel = Limits { fuel: u64::MAX, ..SAFE };
    let one_instr = Limits { instrs: 1, ..SAFE };
    vec![
        case("document 01's image", document(), SAFE, 0, &[]),
        case("no bytes", vec![], SAFE, 1, &[]),
        case("zeros", vec![0; 24], SAFE, 2, &[]),
        case("one byte less", document()[..63].to_vec(), SAFE, 3, &[]),
        case("one byte more", longer, SAFE, 3, &[]),
        case("opcode 56", program(0, &[(1, &[RET, Instr(56, 0, 0, 0, 0)])]), SAFE, 5, &[1]),
        case("no fuel", document(), no_fuel, 10, &[0, 5]),
        case("fuel 2^64 - 1", document(), much_fuel, 10, &[1, 5]),
        case("entry past the functions", program(1, &[(1, &[RET])]), SAFE, 12, &[1]),
        case("256 registers", program(0, &[(256, &[RET])]), SAFE, 0, &[]),
        case("257 registers", program(0, &[(257, &[RET])]), SAFE, 14, &[0, 257, 256]),
        case("two instructions where one may be", document(), one_instr, 15, &[0, 2, 1]),
        case("a lone Ret, no registers", program(0, &[(0, &[RET])]), SAFE, 16, &[0, 0]),
        case("a lone Nop, no registers", program(0, &[(0, &[Instr(0, 0, 0, 0, 0)])]), SAFE, 19, &[0]),
        case("a Call of itself, arg_base 1", program(0, &[(1, &call_itself(1))]), SAFE, 0, &[]),
        case("a Call of itself, arg_base 2", program(0, &[(1, &call_itself(2))]), SAFE, 20, &[0, 2, 0]),
    ]
}

/// Prints what is wrong with a case, if anything is.
fn is_right(case: &Case) -> bool {
    let before = case.image.clone();
    let got = validate(&case.image, case.limits);
    let name = case.name;
    if got != Some(case.expected) {
        println!(
            "wrong: {name}: expected {:?}, got {got:?} (None: words beside the answer changed)",
            case.expected
        );
        return false;
    }
    if case.image != before {
        println!("wrong: {name}: expected the image as it was, got other bytes");
        return false;
    }
    true
}

fn main() -> ExitCode {
    boundary::run("knit_validate", &cases(), is_right)
}
