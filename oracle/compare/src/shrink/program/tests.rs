use oracle::generate;
use oracle::records::{call, jump, jump_if, load, ret, three};

use super::*;

fn function(regs: u16, instrs: &[Record]) -> Function {
    Function::new(regs, instrs.to_vec())
}

/// Three functions: the first calls the second and the third, the second the
/// third, the third one that is not there.
fn three_functions() -> Program {
    Program {
        entry: 1,
        functions: vec![
            function(1, &[call(0, 1, 0, 0), call(0, 2, 0, 0), ret(0)]),
            function(2, &[call(0, 2, 0, 0), ret(0)]),
            function(3, &[call(0, 4, 0, 0), ret(0)]),
        ],
    }
}

fn callees(program: &Program) -> Vec<u16> {
    let records = program.functions.iter().flat_map(|f| &f.instrs);
    let calls = records.filter(|record| record.opcode == CALL);
    calls.map(|record| record.b).collect()
}

fn regs(program: &Program) -> Vec<u16> {
    program.functions.iter().map(|f| f.regs).collect()
}

#[test]
fn functions_that_stay_get_new_numbers() {
    let program = three_functions();
    let first = edited(&program, &Edit::Functions(0..1)).unwrap();
    assert_eq!((first.entry, regs(&first)), (0, vec![2, 3]));
    assert_eq!(callees(&first), [1, 3]);
    let last = edited(&program, &Edit::Functions(2..3)).unwrap();
    assert_eq!((last.entry, regs(&last)), (1, vec![1, 2]));
    // Calls of what is gone are Nops, one of what never was is still none.
    assert_eq!(callees(&last), [1]);
    assert_eq!(last.functions[1].instrs[0], plain(NOP));
    let entry = edited(&program, &Edit::Functions(1..2)).unwrap();
    assert_eq!((entry.entry, regs(&entry)), (1, vec![1, 3]));
    assert_eq!(callees(&entry), [1, 3]);
    let none = edited(&program, &Edit::Functions(0..3)).unwrap();
    assert_eq!((none.entry, none.functions.len()), (0, 0));
}

#[test]
fn one_function_is_left_as_the_entry() {
    let program = three_functions();
    for (number, callee) in [(0, None), (1, None), (2, Some(2))] {
        let only = edited(&program, &Edit::Only(number)).unwrap();
        assert_eq!((only.entry, only.functions.len()), (0, 1));
        assert_eq!(only.functions[0].regs, number as u16 + 1);
        assert_eq!(callees(&only).first().copied(), callee);
    }
}

/// Calls of itself stay what they are.
#[test]
fn a_function_alone_still_calls_itself() {
    let mut program = three_functions();
    program.functions[1].instrs[0].b = 1;
    let only = edited(&program, &Edit::Only(1)).unwrap();
    assert_eq!(callees(&only), [0]);
}

#[test]
fn jumps_go_where_they_went() {
    let instrs = [
        jump(0),
        jump(1),
        jump(2),
        jump_if(52, 0, 3),
        jump_if(53, 0, 4),
        jump(5),
        jump(u32::MAX),
    ];
    let program = Program::single(1, instrs.to_vec());
    let shorter = edited(&program, &Edit::Instructions(0, 1..3)).unwrap();
    let targets: Vec<u32> = shorter.functions[0].instrs.iter().map(|r| r.w).collect();
    // Of the jumps at 0, 3, 4, 5 and 6 to 0, 3, 4, 5 and past the end.
    assert_eq!(targets, [0, 1, 2, 3, u32::MAX - 2]);
    // A jump to what is gone goes to what comes next; the length stays one.
    let program = Program::single(1, vec![jump(2), ret(0), ret(0), jump(4)]);
    let shorter = edited(&program, &Edit::Instructions(0, 1..3)).unwrap();
    let targets: Vec<u32> = shorter.functions[0].instrs.iter().map(|r| r.w).collect();
    assert_eq!(targets, [1, 2]);
}

#[test]
fn registers_that_are_not_named_are_left_out() {
    // Named: 2, 4 and 5 of 7, and 8, which is not there. Loads load the same.
    let instrs = vec![
        load(7, 4, 0, 9),
        three(32, 2, 4, 8),
        call(2, 0, 4, 2),
        ret(2),
    ];
    let program = Program::single(7, instrs);
    let compact = edited(&program, &Edit::Compact(0)).unwrap();
    assert_eq!(compact.functions[0].regs, 3);
    let expected = [
        load(7, 1, 0, 9),
        three(32, 0, 1, 4),
        call(0, 0, 1, 2),
        ret(0),
    ];
    assert_eq!(compact.functions[0].instrs, expected);
    assert_eq!(edited(&compact, &Edit::Compact(0)), None);
}

#[test]
fn an_edit_that_changes_nothing_is_none() {
    let program = Program::single(1, vec![plain(NOP), ret(0)]);
    assert_eq!(edited(&program, &Edit::Nop(0, 0)), None);
    assert_eq!(edited(&program, &Edit::Nop(0, 9)), None);
    assert_eq!(edited(&program, &Edit::Nop(9, 0)), None);
    assert_eq!(edited(&program, &Edit::Compact(0)), None);
    assert!(edited(&program, &Edit::Nop(0, 1)).is_some());
}

/// What becomes less with every edit, so that shrinking comes to an end: the
/// first of these that changes.
fn size(program: &Program) -> [u64; 6] {
    let records = || program.functions.iter().flat_map(|f| &f.instrs);
    let number = |record: &Record, field: Field| {
        let value = field.get(record);
        let negative = (value as i32) < 0;
        match (record.opcode, field) {
            (6 | 8, Field::W) => 2 * u64::from((value as i32).unsigned_abs()) + u64::from(negative),
            _ => u64::from(value),
        }
    };
    let numbers = |record: &Record| {
        FIELDS
            .map(|field| number(record, field))
            .iter()
            .sum::<u64>()
    };
    let named = program.functions.iter().filter(|f| f.name_id != 0).count();
    [
        program.functions.len() as u64,
        records().count() as u64,
        records().filter(|record| record.opcode != NOP).count() as u64,
        program.functions.iter().map(|f| u64::from(f.regs)).sum(),
        u64::from(program.entry) + named as u64,
        records().map(numbers).sum(),
    ]
}

#[test]
fn every_edit_makes_a_program_smaller() {
    let mut tried = 0;
    for number in 0..60 {
        let program = generate::program(11, number);
        for edit in edits(&program) {
            if let Some(smaller) = edited(&program, &edit) {
                assert!(size(&smaller) < size(&program), "{number}: {edit:?}");
                tried += 1;
            }
        }
    }
    assert!(tried > 10_000, "{tried}");
}

/// A program that is too large for single edits has parts to lose.
#[test]
fn a_large_program_loses_parts() {
    let mut instrs = vec![plain(NOP); 100_000];
    instrs.push(ret(0));
    let all = edits(&Program::single(1, instrs));
    assert!(all.len() < 10_000, "{}", all.len());
    assert!(all.contains(&Edit::Instructions(0, 0..50_000)));
    let crowd = Program {
        entry: 0,
        functions: vec![function(1, &[ret(0)]); 70_000],
    };
    let all = edits(&crowd);
    assert!(all.len() < 10_000, "{}", all.len());
    assert!(all.contains(&Edit::Functions(35_000..70_000)));
}
