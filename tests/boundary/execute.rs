//! `knit_execute` and `knit_digest` as a caller in Rust sees them, linked with the archive. Answers and the lent memory after each
//! call are written out by hand from document 01.

use std::process::ExitCode;

use boundary::{answer, program, Answer, Instr, Lent, ANSWER_WORDS, DOCUMENT_01, FILL, RET};

extern "C" {
    fn knit_execute(
        image: *const u8,
        image_len: usize,
        fuel: u64,
        max_call_depth: u16,
        frames: *mut u64,
        frames_len: usize,
        registers: *mut u64,
        registers_len: usize,
        answer: *mut u64,
    ) -> u64;

    fn knit_digest(status: u64, kind: u64, payload: u64, fuel_used: u64) -> u64;
}

#[derive(Clone, Copy)]
struct Terms {
    fuel: u64,
    depth: u16,
    frames: usize,
    registers: usize,
}

const ROOMY: Terms = Terms {
    fuel: 1_000,
    depth: 64,
    frames: 256,
    registers: 256,
};

/// What a run gives: its answer, and all words of the lent frames and registers afterwards.
#[derive(Debug, PartialEq, Eq)]
struct Outcome {
    answer: Answer,
    frames: Vec<u64>,
    registers: Vec<u64>,
}

/// Calls the function safely: slices and an array keep every promise that its header asks of a caller.
/// Nothing where a word beside lent ones was changed.
fn execute(image: &[u8], terms: Terms) -> Option<Outcome> {
    let mut frames = Lent::new(terms.frames);
    let mut registers = Lent::new(terms.registers);
    let mut words = Lent::new(ANSWER_WORDS);
    // SAFETY: the pointers come from slices that outlive the call, do not overlap, and are never null.
    let number = unsafe {
        knit_execute(
            image.as_ptr(),
            image.len(),
            terms.fuel,
            terms.depth,
            frames.words().as_mut_ptr(),
            terms.frames,
            registers.words().as_mut_ptr(),
            terms.registers,
            words.words().as_mut_ptr(),
        )
    };
    Some(Outcome {
        answer: answer(number, words.back()?),
        frames: frames.back()?.to_vec(),
        registers: registers.back()?.to_vec(),
    })
}

fn digest_of(words: [u64; 4]) -> u64 {
    let [status, kind, payload, fuel] = words;
    let start = 0xcbf2_9ce4_8422_2325_u64;
    [status, kind, payload, 0, fuel]
        .iter()
        .fold(start, |digest, word| {
            (digest ^ word).wrapping_mul((1 << 44) + 435)
        })
}

const UNIT: u64 = 0;

const fn boolean(value: bool) -> u64 {
    2 << 32 | value as u64
}

const fn i32_word(value: i32) -> u64 {
    3 << 32 | value as u32 as u64
}

/// The answer of a run that ended with a register's word as its value.
fn done(status: u64, value: u64, fuel: u64) -> Answer {
    let words = [status, value >> 32, value & 0xffff_ffff, fuel];
    answer(0, &[&words[..], &[digest_of(words)]].concat())
}

struct Case {
    name: &'static str,
    image: Vec<u8>,
    terms: Terms,
    expected: Outcome,
}

/// Lent words after `records` and `registers` must be as they were.
fn case(
    name: &'static str,
    image: &[u8],
    terms: Terms,
    answer: Answer,
    records: &[[u64; 4]],
    registers: &[u64],
) -> Case {
    let padded = |written: &[u64], len: usize| {
        let mut words = written.to_vec();
        words.resize(len, FILL);
        words
    };
    let expected = Outcome {
        answer,
        frames: padded(&records.concat(), terms.frames),
        registers: padded(registers, terms.registers),
    };
    Case {
        name,
        image: image.to_vec(),
        terms,
        expected,
    }
}

#[rustfmt::skip] // one line for each case
fn ends() -> Vec<Case> {
    let document = &DOCUMENT_01;
    let terms = |fuel, depth, frames, registers| Terms { fuel, depth, frames, registers };
    let missing = program(1, &[(1, &[RET])]);
    let empty = program(0, &[(1, &[])]);
    let wide = program(0, &[(3, &[RET])]);
    vec![
        case("document 01's image", document, ROOMY, done(0, i32_word(-1), 2), &[[0, 1, 0, 0]], &[i32_word(-1)]),
        case("the least room", document, terms(2, 0, 4, 1), done(0, i32_word(-1), 2), &[[0, 1, 0, 0]], &[i32_word(-1)]),
        case("fuel 2^64 - 1", document, terms(u64::MAX, 1, 4, 1), done(0, i32_word(-1), 2), &[[0, 1, 0, 0]], &[i32_word(-1)]),
        case("fuel 1", document, terms(1, 1, 4, 1), done(6, UNIT, 1), &[[0, 1, 0, 0]], &[i32_word(-1)]),
        case("fuel 0, place inside", document, terms(0, 1, 4, 1), done(6, UNIT, 0), &[[0, 0, 0, 0]], &[UNIT]),
        case("fuel 0, place at the length", &empty, terms(0, 1, 4, 1), done(1, UNIT, 0), &[[0, 0, 0, 0]], &[UNIT]),
        case("an entry that doesn't exist", &missing, ROOMY, done(8, UNIT, 0), &[], &[]),
        case("an entry that doesn't exist, no room", &missing, terms(0, 0, 0, 0), done(8, UNIT, 0), &[], &[]),
        case("no bytes", &[], ROOMY, answer(1, &[]), &[], &[]),
        case("zeros", &[0; 24], ROOMY, answer(2, &[]), &[], &[]),
        case("one byte less", &document[..63], ROOMY, answer(3, &[]), &[], &[]),
        case("opcode 56", &program(0, &[(1, &[RET, Instr(56, 0, 0, 0, 0)])]), ROOMY, answer(5, &[1]), &[], &[]),
        case("no record", &wide, terms(9, 64, 3, 256), answer(6, &[]), &[], &[]),
        case("too few registers", &wide, terms(9, 64, 4, 2), answer(7, &[]), &[], &[]),
    ]
}

#[rustfmt::skip] // one line for each case
fn calls() -> Vec<Case> {
    let terms = |fuel, depth, frames, registers| Terms { fuel, depth, frames, registers };
    let load_i32 = |dst, value| Instr(6, dst, 0, 0, value);
    let nine = program(0, &[(1, &[Instr(54, 0, 9, 0, 0)])]);
    let itself = program(0, &[(2, &[load_i32(0, 5), Instr(54, 1, 0, 0, 1)])]);
    let arguments = program(0, &[(3, &[load_i32(1, 7), Instr(54, 2, 1, 1, 1), Instr(55, 2, 0, 0, 0)]), (2, &[RET])]);
    let bad_dst = program(0, &[(1, &[Instr(54, 9, 1, 0, 0), RET]), (1, &[load_i32(0, 2), RET])]);
    let fails = program(0, &[(1, &[Instr(5, 0, 0, 0, 0), Instr(2, 0, 0, 0, 0)])]);
    let five = [i32_word(5), UNIT];
    let after = [UNIT, i32_word(7), i32_word(7), i32_word(7), UNIT];
    vec![
        case("depth 0, a Call to function 9 of 1", &nine, terms(5, 0, 256, 256), done(7, UNIT, 1), &[[0, 0, 0, 0]], &[UNIT]),
        case("a Call with no record left", &itself, terms(9, 64, 7, 256), answer(6, &[2]), &[[0, 1, 0, 0]], &five),
        case("a Call with too few registers", &itself, terms(9, 64, 8, 3), answer(7, &[2]), &[[0, 1, 0, 0]], &five),
        case("arguments first, Unit after", &arguments, ROOMY, done(0, i32_word(7), 4), &[[0, 2, 0, 0], [1, 0, 2, 3]], &after),
        case("a bad dst at Ret", &bad_dst, ROOMY, done(2, UNIT, 3), &[[0, 1, 0, 0], [1, 1, 9, 1]], &[UNIT, i32_word(2)]),
        case("an Assert that fails", &fails, ROOMY, done(9, UNIT, 2), &[[0, 1, 0, 0]], &[boolean(false)]),
    ]
}

/// Prints what is wrong with a case, if anything is. The digest is asked for once more, as a caller with the words alone would.
fn is_right(case: &Case) -> bool {
    let before = case.image.clone();
    let got = execute(&case.image, case.terms);
    let name = case.name;
    if got.as_ref() != Some(&case.expected) {
        println!(
            "wrong: {name}: expected {:?}, got {got:?} (None: words beside lent ones changed)",
            case.expected
        );
        return false;
    }
    if case.image != before {
        println!("wrong: {name}: expected the image as it was, got other bytes");
        return false;
    }
    digest_is_right(name, case.expected.answer.1)
}

fn digest_is_right(name: &str, [status, kind, payload, fuel, _]: [u64; ANSWER_WORDS]) -> bool {
    let expected = digest_of([status, kind, payload, fuel]);
    // SAFETY: the function takes any numbers.
    let got = unsafe { knit_digest(status, kind, payload, fuel) };
    if got != expected {
        println!("wrong: {name}: expected digest {expected:x}, got {got:x}");
    }
    got == expected
}

fn main() -> ExitCode {
    let cases: Vec<Case> = ends().into_iter().chain(calls()).collect();
    boundary::run("knit_execute and knit_digest", &cases, is_right)
}
