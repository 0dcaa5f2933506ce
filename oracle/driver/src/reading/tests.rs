use super::*;
use crate::generate;
use crate::image::read;
use crate::list::operations;
use crate::run;
use crate::sample::{call, image, jump, load, plain, ret, single, three, Function};
use crate::word::{word, BOOL, I32, U32};

/// What lent words hold before.
const LENT: u64 = 0xa5a5_a5a5_a5a5_a5a5;

/// An answer with what a run left in so many frame and register words.
#[derive(Debug, PartialEq)]
struct Left {
    answer: Answer,
    frames: Vec<u64>,
    registers: Vec<u64>,
}

impl Left {
    fn behind(image: &[u8], limits: Limits, room: (usize, usize)) -> Self {
        let mut frames = vec![LENT; room.0];
        let mut registers = vec![LENT; room.1];
        let answer = answer(image, limits, &mut frames, &mut registers);
        Self {
            answer,
            frames,
            registers,
        }
    }
}

fn limits(fuel: u64, max_call_depth: u16) -> Limits {
    Limits {
        fuel,
        max_call_depth,
    }
}

/// What a run leaves with fuel 100, depth 8, and room for 8 frames.
fn left(image: &[u8]) -> Left {
    Left::behind(image, limits(100, 8), (32, 16))
}

/// The status and the fuel used.
fn ended(image: &[u8], limits: Limits) -> (u64, u64) {
    let Answer { number, words } = Left::behind(image, limits, (32, 16)).answer;
    assert_eq!(number, 0);
    (words[0], words[3])
}

fn status(trap: CoreTrap) -> u64 {
    1 + u64::from(trap.code())
}

/// A caller of three registers that gives its last two to a callee of three,
/// which returns the sum of its first two into the caller's register 0.
fn sum() -> Vec<u8> {
    let caller = vec![
        load(7, 1, 0, 40),
        load(7, 2, 0, 2),
        call(0, 1, 1, 2),
        ret(0),
    ];
    let callee = vec![three(32, 2, 0, 1), ret(2)];
    let function = |regs, instrs| Function { regs, instrs };
    image(0, &[function(3, caller), function(3, callee)])
}

#[test]
fn a_call_leaves_both_records_and_all_registers() {
    let left = left(&sum());
    let u32s = |payloads: [u32; 6]| payloads.map(|payload| word(U32, payload));
    assert_eq!(left.answer.words[..4], [0, U32, 42, 6]);
    assert_eq!(left.frames[..8], [0, 3, 0, 0, 1, 1, 0, 3]);
    assert_eq!(left.registers[..6], u32s([42, 40, 2, 40, 2, 42]));
    assert!(left.frames[8..].iter().all(|word| *word == LENT));
    assert!(left.registers[6..].iter().all(|word| *word == LENT));
}

/// Wherever fuel runs out, the record has the place that it had come to.
#[test]
fn every_round_keeps_the_place_in_its_record() {
    let places = [(0, LENT), (1, LENT), (2, LENT), (3, 0), (3, 1), (3, 1)];
    for (fuel, (caller, callee)) in (0..).zip(places) {
        let left = Left::behind(&sum(), limits(fuel, 2), (8, 6));
        assert_eq!((left.frames[1], left.frames[5]), (caller, callee), "{fuel}");
        assert_eq!(left.answer.words[0], status(CoreTrap::FuelExceeded));
        assert_eq!(left.answer.words[3], fuel);
    }
}

#[test]
fn a_callee_begins_with_its_arguments_and_unit_after() {
    let left = Left::behind(&sum(), limits(3, 2), (8, 6));
    assert_eq!(left.registers[3..], [word(U32, 40), word(U32, 2), 0]);
}

#[test]
fn too_little_room_is_refused_in_order() {
    let with = |frames, registers| {
        let Left { answer, .. } = Left::behind(&sum(), limits(9, 2), (frames, registers));
        (answer.number, answer.words[0])
    };
    assert_eq!(with(8, 6).0, 0);
    assert_eq!(with(7, 5), (6, 3));
    assert_eq!(with(8, 5), (7, 3));
    assert_eq!(with(3, 2), (6, 0));
    assert_eq!(with(4, 2), (7, 0));
    assert_eq!(with(0, 0), (6, 0));
}

#[test]
fn a_refused_call_writes_nothing() {
    let before = Left::behind(&sum(), limits(2, 2), (8, 6));
    for room in [(7, 6), (8, 5)] {
        let mut left = Left::behind(&sum(), limits(9, 2), room);
        left.frames.resize(8, LENT);
        left.registers.resize(6, LENT);
        assert_eq!(left.frames, before.frames);
        assert_eq!(left.registers, before.registers);
    }
}

#[test]
fn what_never_enters_writes_nothing() {
    let mut absent = sum();
    absent[2] = 2;
    for image in [&absent[..], &absent[..23], &sum()[..23]] {
        let left = left(image);
        assert!(left.frames.iter().all(|word| *word == LENT));
        assert!(left.registers.iter().all(|word| *word == LENT));
    }
    assert_eq!(
        ended(&absent, limits(9, 0)),
        (status(CoreTrap::InvalidFunction), 0)
    );
    let Left { answer, .. } = Left::behind(&absent, limits(9, 9), (0, 0));
    assert_eq!(answer.words[0], status(CoreTrap::InvalidFunction));
}

/// The callee has one register less than the caller, whose dst is past both.
#[test]
fn a_ret_that_finds_no_dst_writes_nothing() {
    let function = |regs, instrs| Function { regs, instrs };
    let caller = function(1, vec![call(1, 1, 0, 0), ret(0)]);
    let callee = function(2, vec![load(5, 1, 1, 0), ret(1)]);
    let left = left(&image(0, &[caller, callee]));
    assert_eq!(left.answer.words[0], status(CoreTrap::InvalidRegister));
    assert_eq!(left.answer.words[3], 3);
    assert_eq!(left.frames[..8], [0, 1, 0, 0, 1, 1, 1, 1]);
    assert_eq!(left.registers[..3], [0, 0, word(BOOL, 1)]);
}

#[test]
fn a_place_past_the_length_is_charged_nothing() {
    let nop = single(0, vec![plain(0)]);
    let invalid = status(CoreTrap::InvalidPc);
    assert_eq!(ended(&single(0, vec![]), limits(0, 0)), (invalid, 0));
    assert_eq!(ended(&nop, limits(1, 0)), (invalid, 1));
    let exceeded = status(CoreTrap::FuelExceeded);
    assert_eq!(ended(&nop, limits(0, 0)), (exceeded, 0));
    let far = left(&single(0, vec![jump(u32::MAX)]));
    assert_eq!(far.frames[1], u64::from(u32::MAX));
    assert_eq!(far.answer.words[3], 1);
}

#[test]
fn a_call_is_looked_at_in_document_01s_order() {
    let of = |record, depth| ended(&single(1, vec![record]), limits(5, depth)).0;
    let everything = call(9, 9, 9, 9);
    assert_eq!(of(everything, 1), status(CoreTrap::CallDepthExceeded));
    assert_eq!(of(everything, 0), status(CoreTrap::CallDepthExceeded));
    assert_eq!(of(everything, 2), status(CoreTrap::InvalidFunction));
    assert_eq!(of(call(9, 0, 9, 9), 2), status(CoreTrap::InvalidRegister));
    assert_eq!(of(call(9, 0, 9, 0), 2), status(CoreTrap::CallDepthExceeded));
}

#[test]
fn a_trap_leaves_its_own_place() {
    let left = left(&single(
        1,
        vec![plain(0), load(6, 0, 0, 7), three(32, 0, 0, 0)],
    ));
    assert_eq!(left.answer.words[0], status(CoreTrap::TypeMismatch));
    assert_eq!(left.frames[..4], [0, 2, 0, 0]);
    assert_eq!(left.registers[0], word(I32, 7));
}

/// The operations by themselves: all that the fixed list has.
#[test]
fn operations_are_those_of_the_rust() {
    for case in operations::all() {
        let record = Record {
            opcode: case.opcode,
            small: case.small,
            w: case.w,
            c: 1,
            ..Record::default()
        };
        let read = |register| {
            let operand = if register == 0 { case.lhs } else { case.rhs };
            operand.ok_or(CoreTrap::InvalidRegister)
        };
        let ours = match values::result(record, read) {
            Ok(word) => format!("value {word:016x}"),
            Err(trap) => format!("trap {}", trap.code()),
        };
        let line = case.line();
        assert_eq!(crate::answer::answer(line.as_bytes()), Some(ours), "{line}");
    }
}

#[test]
fn runs_with_enough_room_end_as_the_rusts_do() {
    for number in 0..5_000 {
        let image = generate::program(3, number).image();
        let program = read(&image).unwrap();
        let largest = program.functions.iter().map(|f| f.regs).max();
        let words = usize::from(largest.unwrap_or(0)) * 12;
        for (fuel, depth) in [(0, 0), (7, 2), (1_000, 12)] {
            let rust = run::of_program(&program, fuel, depth);
            let ours = Left::behind(&image, limits(fuel, depth), (4 * 12, words));
            assert_eq!(ours.answer, rust, "program {number}, {fuel}, {depth}");
        }
    }
}
