use super::*;
use crate::list::operations;

/// The answer to a line with these fields.
fn answer(fields: &str) -> Option<String> {
    crate::answer::answer(format!("operate {fields}").as_bytes())
}

/// The answer for two operands, given as kind and payload.
fn pair(opcode: u8, lhs: (u64, i64), rhs: (u64, i64)) -> String {
    let word = |(kind, payload)| Some(word::word(kind, payload as u32));
    let case = Case {
        opcode,
        small: 0,
        w: 0,
        lhs: word(lhs),
        rhs: word(rhs),
    };
    crate::answer::answer(case.line().as_bytes()).unwrap()
}

fn value(kind: u64, payload: i64) -> String {
    format!("value {:016x}", word::word(kind, payload as u32))
}

use word::{BOOL, FX, I32, QUAD, U32, UNIT};

#[test]
fn the_edges_of_document_01() {
    assert_eq!(pair(43, (FX, -1), (FX, 1)), value(FX, -1));
    assert_eq!(pair(44, (FX, -1), (FX, 131_072)), value(FX, 0));
    assert_eq!(pair(44, (FX, 32_768), (FX, -1)), value(FX, i32::MIN.into()));
    assert_eq!(pair(44, (FX, 32_768), (FX, 1)), "trap 4");
    assert_eq!(pair(26, (I32, i32::MIN.into()), (I32, -1)), "trap 4");
    assert_eq!(pair(26, (BOOL, 1), (I32, 0)), "trap 3");
    assert_eq!(pair(44, (BOOL, 1), (FX, 0)), "trap 2");
    assert_eq!(pair(19, (BOOL, 0), (I32, 5)), value(BOOL, 0));
    assert_eq!(pair(20, (BOOL, 1), (I32, 5)), value(BOOL, 1));
}

#[test]
fn the_quad_rule_of_document_01() {
    let quads = 0..4i64;
    let inverse = |q: i64| (q & 1) << 1 | q >> 1;
    for a in quads.clone() {
        assert_eq!(pair(9, (QUAD, a), (UNIT, 0)), value(QUAD, inverse(a)));
        assert_eq!(
            pair(15, (QUAD, a), (UNIT, 0)),
            value(BOOL, (a == 1 || a == 2).into())
        );
        assert_eq!(pair(16, (QUAD, a), (UNIT, 0)), value(BOOL, (a == 3).into()));
        assert_eq!(pair(17, (QUAD, a), (UNIT, 0)), value(BOOL, (a == 0).into()));
        for b in quads.clone() {
            assert_eq!(pair(10, (QUAD, a), (QUAD, b)), value(QUAD, a | b));
            assert_eq!(pair(11, (QUAD, a), (QUAD, b)), value(QUAD, a & b));
            assert_eq!(pair(12, (QUAD, a), (QUAD, b)), value(QUAD, inverse(a) | b));
            assert_eq!(pair(13, (QUAD, a), (QUAD, b)), value(BOOL, (a == b).into()));
            assert_eq!(pair(14, (QUAD, a), (QUAD, b)), value(BOOL, (a != b).into()));
        }
    }
}

#[test]
fn left_and_right_are_not_exchanged() {
    assert_eq!(pair(24, (I32, 1), (I32, 2)), value(I32, -1));
    assert_eq!(pair(33, (U32, 2), (U32, 1)), value(U32, 1));
    assert_eq!(pair(33, (U32, 1), (U32, 2)), "trap 4");
    assert_eq!(pair(46, (FX, 1), (FX, 2)), value(BOOL, 1));
}

#[test]
fn a_missing_register_is_a_trap_where_it_is_read() {
    let lhs = format!("13 00 00000000 {MISSING_FIELD} 0000000200000001");
    assert_eq!(answer(&lhs).unwrap(), "trap 1");
    // BoolAnd with a false lhs does not read rhs.
    let rhs = format!("13 00 00000000 0000000200000000 {MISSING_FIELD}");
    assert_eq!(answer(&rhs).unwrap(), "value 0000000200000000");
    // Move reads no rhs.
    let unread = format!("32 00 00000000 0000000400000009 {MISSING_FIELD}");
    assert_eq!(answer(&unread).unwrap(), "value 0000000400000009");
}

#[test]
fn a_load_answers_with_its_own_value() {
    let none = "0000000000000000 0000000000000000";
    assert_eq!(
        answer(&format!("03 00 00000000 {none}")).unwrap(),
        value(UNIT, 0)
    );
    assert_eq!(
        answer(&format!("04 03 00000000 {none}")).unwrap(),
        value(QUAD, 3)
    );
    assert_eq!(
        answer(&format!("05 01 00000000 {none}")).unwrap(),
        value(BOOL, 1)
    );
    assert_eq!(
        answer(&format!("06 00 ffffffff {none}")).unwrap(),
        value(I32, -1)
    );
    assert_eq!(
        answer(&format!("07 00 ffffffff {none}")).unwrap(),
        value(U32, -1)
    );
    assert_eq!(
        answer(&format!("08 00 80000000 {none}")).unwrap(),
        value(FX, 1 << 31)
    );
}

#[test]
fn anything_else_is_a_bad_line() {
    let none = "0000000000000000 0000000000000000";
    let lines = [
        String::new(),
        // Opcodes outside the list, and values that no image could hold.
        format!("02 00 00000000 {none}"),
        format!("33 00 00000000 {none}"),
        format!("04 04 00000000 {none}"),
        format!("05 02 00000000 {none}"),
        format!("06 01 00000000 {none}"),
        format!("09 01 00000000 {none}"),
        format!("17 00 00000001 {none}"),
        // Register words that stand for no value.
        "17 00 00000000 0000000600000000 0000000300000000".to_string(),
        "17 00 00000000 0000000000000001 0000000300000000".to_string(),
        "17 00 00000000 0000000100000004 0000000300000000".to_string(),
        "17 00 00000000 0000000300000000 0000000200000002".to_string(),
        "17 00 00000000 0000000300000000 0000000200000101".to_string(),
        // Wrong spelling.
        format!("9 00 00000000 {none}"),
        format!("0A 00 00000000 {none}"),
        format!("0a 00 00000000  {none}"),
        format!("0a 00 00000000 {none} "),
        format!("0a 00 00000000 {none}\r"),
        "0a 00 00000000 --------------- 0000000000000000".to_string(),
        "0a 00 00000000 0000000000000000".to_string(),
    ];
    for line in lines {
        assert_eq!(answer(&line), None, "{line:?}");
    }
}

/// The loads and the Ret cannot trap, so a trap is always the operation's own.
#[test]
fn every_trap_of_the_list_comes_from_the_operation() {
    for case in operations::all() {
        let length = case.program().unwrap().functions[0].instrs.len() as u64;
        let result = case.result().unwrap();
        let expected = match result.status {
            CoreStatus::Returned => length,
            CoreStatus::Trapped(_) => length - 1,
        };
        assert_eq!(result.fuel_used, expected, "{}", case.line());
    }
}
