//! What is left of a case that differs when all that can go is gone.

use oracle::image::Tables;
use oracle::measure::Room;
use oracle::reading::Limits;
use oracle::text::hex_bytes;

use super::*;

/// The question that a report ends with, by its settings and its line.
pub fn shrunk(text: &str) -> Question {
    let lines: Vec<&str> = text.lines().collect();
    let at = lines.iter().position(|l| l.starts_with("made smaller "));
    let at = at.unwrap_or_else(|| panic!("{text}"));
    let [settings, line] = lines[lines.len() - 2..] else {
        panic!("{text}");
    };
    assert!(lines.len() - 2 > at, "{text}");
    let numbers = settings
        .split([' ', ','])
        .filter_map(|word| word.parse().ok());
    let numbers: Vec<usize> = numbers.collect();
    let fields: Vec<&str> = line.split(' ').collect();
    assert_eq!(fields[0], "run");
    Question {
        image: hex_bytes(fields[3].as_bytes()).unwrap(),
        limits: Limits {
            fuel: fields[1].parse().unwrap(),
            max_call_depth: fields[2].parse().unwrap(),
        },
        room: Room {
            frames: numbers[2],
            registers: numbers[3],
        },
        salt: 0,
    }
}

fn tables(question: &Question) -> Tables {
    image::tables(&question.image).unwrap()
}

/// Says that what a report ends with is small: at most two functions and six
/// instructions, or next to no bytes. It must still differ, though not for
/// every pattern of lent memory.
#[track_caller]
pub fn is_small(engine: Engine, text: &str) {
    let question = shrunk(text);
    let mut scratch = Scratch::default();
    let differs = (0..16).any(|salt| {
        let question = Question {
            salt,
            ..question.clone()
        };
        faults::question_fault(engine, &question, &mut scratch).is_some()
    });
    assert!(differs, "{text}");
    match image::tables(&question.image) {
        Ok(tables) => {
            assert!(tables.functions.len() <= 2, "{text}");
            assert!(tables.instructions.len() <= 6, "{text}");
        }
        Err(_) => assert!(question.image.len() <= 24, "{text}"),
    }
}

/// An engine that gives another answer if such an instruction is begun.
fn wrong_where(asked: Asked, wanted: fn(&Run, Record) -> bool) -> u64 {
    let mut met = false;
    let number = playing(asked, |run| {
        let fuelled = run.used < run.limits.fuel;
        let record = run.instruction().filter(|_| fuelled);
        met |= record.is_some_and(|record| wanted(run, record));
        run.round()
    });
    number + 100 * u64::from(met)
}

/// Two loads and the division that is wrong.
#[test]
fn a_wrong_division_becomes_three_instructions() {
    let question = shrunk(&differs_in_generated(|asked| {
        super::rounds::with_fixed_point(asked, 44, |lhs, rhs| {
            let (quotient, rest) = (lhs * 65_536 / rhs, lhs * 65_536 % rhs);
            quotient - i64::from(rest != 0 && (rest < 0) != (rhs < 0))
        })
    }));
    let tables = tables(&question);
    assert_eq!(tables.functions.len(), 1);
    let opcodes: Vec<u8> = tables.instructions.iter().map(|r| r.opcode).collect();
    assert_eq!(opcodes, [8, 8, 44]);
    assert_eq!(question.limits.fuel, 3);
    assert_eq!(question.room.frames, 4);
    assert!(question.room.registers <= 3);
}

/// One instruction is all it takes, with fuel for it and room for nothing
/// that it does not use.
#[test]
fn a_wrong_instruction_is_left_alone() {
    let question = shrunk(&differs_in_generated(|asked| {
        wrong_where(asked, |_, record| record.opcode == 50)
    }));
    let tables = tables(&question);
    assert_eq!(tables.functions.len(), 1);
    assert_eq!(tables.functions[0].regs, 0);
    let [copy] = tables.instructions[..] else {
        panic!("{tables:?}");
    };
    assert_eq!((copy.opcode, copy.a, copy.b), (50, 0, 0));
    assert_eq!(question.limits.fuel, 1);
    assert_eq!(question.limits.max_call_depth, 0);
    let room = Room {
        frames: 4,
        registers: 0,
    };
    assert_eq!(question.room, room);
}

/// Wrong in the third frame only: one function that calls itself is left.
#[test]
fn a_fault_in_a_deep_frame_becomes_one_function() {
    let question = shrunk(&differs_in_generated(|asked| {
        wrong_where(asked, |run, record| run.depth == 3 && record.opcode != 54)
    }));
    let tables = tables(&question);
    assert_eq!(tables.functions.len(), 1);
    assert_eq!(tables.instructions.len(), 2, "{tables:?}");
    assert_eq!(tables.instructions[1].opcode, 54);
    assert_eq!(question.limits.fuel, 5);
    assert_eq!(question.limits.max_call_depth, 3);
    assert_eq!(question.room.frames, 12);
}

/// Wrong only where there is more fuel than any run could use: what ended must
/// still end, or the trials would never.
#[test]
fn fuel_without_end_does_not_hold_up() {
    let question = shrunk(&differs_in_generated(|asked| {
        let much = asked.limits.fuel > 1 << 33;
        right(asked) + 100 * u64::from(much)
    }));
    assert_eq!(question.limits.fuel, (1 << 33) + 1);
    assert!(question.image.len() <= 24);
}

/// Words to take a digest of become smaller, too.
#[test]
fn words_of_a_wrong_digest_become_small() {
    let engine = Engine {
        execute: right,
        digest: |[status, kind, payload, used]| digest([status, kind & 0xffff, payload, used]),
    };
    let (_, text) = generated(engine, CASES, false);
    let last: Vec<&str> = text.lines().rev().take(3).collect();
    assert!(last[2].starts_with("made smaller in "), "{text}");
    assert!(
        last[2].ends_with(": the digest of 0 65536 0 0 differs"),
        "{text}"
    );
}
