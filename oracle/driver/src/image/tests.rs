use super::*;
use crate::sample::{self, Function};

/// What the reader says about the bytes, as document 01's number and answer.
fn fault(image: &[u8]) -> Option<(u32, u32)> {
    read(image).err().map(|f| (f.number(), f.answer()))
}

fn patched(image: &[u8], at: usize, bytes: &[u8]) -> Vec<u8> {
    let mut copy = image.to_vec();
    copy[at..at + bytes.len()].copy_from_slice(bytes);
    copy
}

/// Two functions of two instructions each: 24 + 32 + 48 bytes.
fn two_functions() -> Vec<u8> {
    let body = || Function {
        regs: 1,
        instrs: vec![sample::plain(0), sample::ret(0)],
    };
    sample::image(0, &[body(), body()])
}

#[test]
fn the_image_of_document_01_is_read() {
    let bytes = crate::text::hex_bytes(sample::DOCUMENT_IMAGE.as_bytes()).unwrap();
    assert_eq!(bytes.len(), 64);
    let program = read(&bytes).unwrap();
    assert_eq!(program.entry, FunctionId(0));
    assert_eq!(program.functions.len(), 1);
    let function = &program.functions[0];
    assert_eq!((function.name_id, function.regs), (SymbolId(7), 1));
    let dst = RegId(0);
    let expected = [Instr::LoadI32 { dst, value: -1 }, Instr::Ret { src: dst }];
    assert_eq!(function.instrs, expected);
}

#[test]
fn each_function_gets_its_own_instructions() {
    let first = Function {
        regs: 3,
        instrs: vec![sample::jump(9)],
    };
    let empty = Function {
        regs: 0,
        instrs: vec![],
    };
    let last = Function {
        regs: 65_535,
        instrs: vec![sample::plain(1), sample::plain(0)],
    };
    let program = read(&sample::image(2, &[first, empty, last])).unwrap();
    assert_eq!(program.entry, FunctionId(2));
    let regs: Vec<u16> = program.functions.iter().map(|f| f.regs).collect();
    assert_eq!(regs, [3, 0, 65_535]);
    assert_eq!(program.functions[0].instrs, [Instr::Jump { target: 9 }]);
    assert_eq!(program.functions[1].instrs, []);
    assert_eq!(program.functions[2].instrs, [Instr::Trap, Instr::Nop]);
}

#[test]
fn an_image_without_functions_is_well_formed_whatever_its_entry() {
    assert_eq!(fault(&sample::image(5, &[])), None);
}

#[test]
fn fewer_than_24_bytes_are_short() {
    assert_eq!(fault(&[]), Some((1, 0)));
    // Short is looked for before the form.
    assert_eq!(fault(&[9; 23]), Some((1, 0)));
}

#[test]
fn a_form_other_than_1_is_refused_before_the_layout() {
    assert_eq!(fault(&[0; 24]), Some((2, 0)));
    for form in [0u16, 2, 0x0101, 0xffff] {
        let bytes = patched(&two_functions(), 0, &form.to_le_bytes());
        assert_eq!(fault(&bytes), Some((2, 0)), "form {form}");
    }
}

#[test]
fn an_offset_or_length_that_differs_is_layout() {
    let good = two_functions();
    assert_eq!(good.len(), 104);
    for (at, right) in [(12, 24u32), (16, 56), (20, 104)] {
        assert_eq!(u32_at(&good, at), right);
        for wrong in [right - 1, right + 1, 0, u32::MAX] {
            let bytes = patched(&good, at, &wrong.to_le_bytes());
            assert_eq!(fault(&bytes), Some((3, 0)), "{wrong} at {at}");
        }
    }
    assert_eq!(fault(&good[..103]), Some((3, 0)));
    let longer = [good.as_slice(), &[0]].concat();
    assert_eq!(fault(&longer), Some((3, 0)));
}

#[test]
fn counts_that_wrap_in_32_bits_are_layout() {
    // 16 * 2^28 is 2^32: a 32-bit sum would say that the length is 24.
    let functions = patched(&sample::header(0, 0, 0), 4, &(1u32 << 28).to_le_bytes());
    assert_eq!(fault(&functions), Some((3, 0)));
    // 12 * 2^30 is 3 * 2^32.
    let instructions = patched(&sample::header(0, 0, 0), 8, &(1u32 << 30).to_le_bytes());
    assert_eq!(fault(&instructions), Some((3, 0)));
}

#[test]
fn the_function_table_is_checked_in_order() {
    let good = two_functions();
    let (zero_0, first_0, count_0) = (24 + 6, 24 + 8, 24 + 12);
    let (zero_1, first_1, count_1) = (40 + 6, 40 + 8, 40 + 12);
    assert_eq!(fault(&patched(&good, zero_0, &[1])), Some((4, 0)));
    assert_eq!(fault(&patched(&good, zero_1 + 1, &[1])), Some((4, 1)));
    assert_eq!(fault(&patched(&good, first_0, &[1])), Some((4, 0)));
    assert_eq!(fault(&patched(&good, first_1, &[3])), Some((4, 1)));
    // A wrong count of function 0 shows where function 1 should start.
    assert_eq!(fault(&patched(&good, count_0, &[1])), Some((4, 1)));
    // A wrong count of the last function shows in the sum alone.
    assert_eq!(fault(&patched(&good, count_1, &[1])), Some((4, 2)));
    assert_eq!(fault(&patched(&good, count_1, &[0xff; 4])), Some((4, 2)));
}

#[test]
fn a_sum_that_wraps_in_32_bits_is_not_the_sum() {
    // Counts 2^32-1 and 1 with the joins right add up to 2^32, not to 0.
    let mut bytes = sample::header(0, 2, 0);
    for (first, count) in [(0u32, u32::MAX), (u32::MAX, 1)] {
        bytes.extend([0; 8]);
        bytes.extend(first.to_le_bytes());
        bytes.extend(count.to_le_bytes());
    }
    assert_eq!(fault(&bytes), Some((4, 2)));
}

#[test]
fn instructions_without_functions_fail_the_sum() {
    let mut bytes = sample::header(0, 0, 1);
    bytes.extend([0; 12]);
    assert_eq!(fault(&bytes), Some((4, 0)));
}

#[test]
fn the_function_table_comes_before_the_instructions() {
    let bytes = patched(&two_functions(), 56, &[99]);
    assert_eq!(fault(&bytes), Some((5, 0)));
    let both = patched(&bytes, 46, &[1]);
    assert_eq!(fault(&both), Some((4, 1)));
}

#[test]
fn an_instruction_is_named_by_its_number_in_the_whole_table() {
    let good = two_functions();
    for number in 0..4 {
        let bytes = patched(&good, 56 + 12 * number, &[56]);
        assert_eq!(fault(&bytes), Some((5, number as u32)));
    }
    let third_and_last = patched(&patched(&good, 92, &[56]), 80, &[56]);
    assert_eq!(fault(&third_and_last), Some((5, 2)));
}

/// Document 01's list of the fields each opcode uses, in its own grouping.
fn used_fields(opcode: u8) -> Option<&'static [&'static str]> {
    match opcode {
        0 | 1 => Some(&[]),
        2 | 3 | 55 => Some(&["a"]),
        4 | 5 => Some(&["small", "a"]),
        6..=8 => Some(&["a", "w"]),
        9 | 15 | 16 | 17 | 18 | 50 => Some(&["a", "b"]),
        10..=14 | 19..=49 => Some(&["a", "b", "c"]),
        51 => Some(&["w"]),
        52 | 53 => Some(&["a", "w"]),
        54 => Some(&["a", "b", "c", "w"]),
        _ => None,
    }
}

#[test]
fn every_field_an_opcode_does_not_use_is_0() {
    for opcode in 0..=255 {
        let plain = sample::plain(opcode);
        let fields = [
            ("small", Record { small: 1, ..plain }),
            ("a", Record { a: 1, ..plain }),
            ("b", Record { b: 1, ..plain }),
            ("c", Record { c: 1, ..plain }),
            ("w", Record { w: 1, ..plain }),
        ];
        let used = used_fields(opcode);
        assert_eq!(plain.instruction().is_some(), used.is_some(), "{opcode}");
        for (name, record) in fields {
            let allowed = used.is_some_and(|names| names.contains(&name));
            assert_eq!(record.instruction().is_some(), allowed, "{opcode} {name}");
        }
    }
}

#[test]
fn opcodes_have_the_numbers_of_the_source() {
    for opcode in 0..=55 {
        let instr = sample::plain(opcode).instruction().unwrap();
        assert_eq!(instr.opcode() as u8, opcode);
    }
}

#[test]
fn small_and_w_have_their_ranges() {
    let small = |opcode, small| {
        Record {
            small,
            ..sample::plain(opcode)
        }
        .instruction()
    };
    assert!(small(4, 3).is_some() && small(4, 4).is_none() && small(4, 255).is_none());
    assert!(small(5, 1).is_some() && small(5, 2).is_none() && small(5, 255).is_none());
    let count = |w| {
        Record {
            w,
            ..sample::plain(54)
        }
        .instruction()
    };
    assert!(count(65_535).is_some() && count(65_536).is_none() && count(u32::MAX).is_none());
}

#[test]
fn fields_go_to_their_operands() {
    let (dst, lhs, rhs) = (RegId(1), RegId(2), RegId(3));
    let read = |record: Record| record.instruction().unwrap();
    assert_eq!(
        read(sample::three(24, 1, 2, 3)),
        Instr::I32Sub { dst, lhs, rhs }
    );
    assert_eq!(
        read(sample::three(50, 1, 2, 0)),
        Instr::Move { dst, src: lhs }
    );
    let value = QuadState::T;
    assert_eq!(
        read(sample::load(4, 1, 2, 0)),
        Instr::LoadQuad { dst, value }
    );
    let value = Fx::from_raw(-1);
    assert_eq!(
        read(sample::load(8, 1, 0, u32::MAX)),
        Instr::LoadFx { dst, value }
    );
    let (cond, target) = (RegId(1), u32::MAX);
    let record = Record {
        w: target,
        a: 1,
        ..sample::plain(53)
    };
    assert_eq!(read(record), Instr::JumpIfFalse { cond, target });
    let (function, arg_base, arg_count) = (FunctionId(2), RegId(3), 4);
    let expected = Instr::Call {
        dst,
        function,
        arg_base,
        arg_count,
    };
    assert_eq!(read(sample::call(1, 2, 3, 4)), expected);
}
