//! Rounds inside one frame: places, fuel, operands.

use semantic_core_runtime::CoreTrap::{
    AssertFailed, DivisionByZero, ExplicitTrap, FuelExceeded, IntegerOverflow, InvalidPc,
    InvalidRegister, TypeMismatch,
};

use super::{
    boolean, fixed, function, quad, returned, signed, trapped, unsigned, Answer, CoreTrap, List,
    UNIT,
};
use crate::image::Record;
use crate::program::DOCUMENT_IMAGE;
use crate::records::{jump, jump_if, load, plain, ret, three, two};
use crate::text::hex_bytes;

pub fn add(list: &mut List) {
    document(list);
    fixed_point(list);
    integers(list);
    quads_and_bools(list);
    order_of_operands(list);
    missing_registers(list);
    places(list);
    far_places(list);
    fuel(list);
    asserts_and_traps(list);
}

/// The image of section "Runner".
fn document(list: &mut List) {
    let image = hex_bytes(DOCUMENT_IMAGE.as_bytes()).unwrap_or_default();
    list.add(
        "the image of document 01",
        (image, 1_000_000, 64),
        (256, 2_048),
        returned(signed(-1), 2),
        (&[[0, 1, 0, 0]], &[signed(-1)]),
    );
}

/// Loads two words, does an operation on them with dst 2, returns that.
fn operation(
    list: &mut List,
    about: &'static str,
    opcode: u8,
    [lhs, rhs]: [u64; 2],
    result: Result<u64, CoreTrap>,
) {
    let instrs = [
        loading(0, lhs),
        loading(1, rhs),
        three(opcode, 2, 0, 1),
        ret(2),
    ];
    let (answer, place, dst) = match result {
        Ok(word) => (returned(word, 4), 3, word),
        Err(trap) => (trapped(trap, 3), 2, UNIT),
    };
    list.single(about, &instrs, answer, place, &[lhs, rhs, dst]);
}

fn loading(dst: u16, word: u64) -> Record {
    let (kind, payload) = ((word >> 32) as u8, word as u32);
    match kind {
        1 | 2 => load(3 + kind, dst, payload as u8, 0),
        _ => load(3 + kind, dst, 0, payload),
    }
}

fn fixed_point(list: &mut List) {
    let mut of = |about, opcode, lhs, rhs, result: Result<i32, CoreTrap>| {
        let operands = [fixed(lhs), fixed(rhs)];
        operation(list, about, opcode, operands, result.map(fixed));
    };
    of("FxMul is the floor", 43, -1, 1, Ok(-1));
    of("FxMul of a half and a half", 43, 32_768, 32_768, Ok(16_384));
    let min = i32::MIN;
    of(
        "FxMul past the type",
        43,
        min,
        -65_536,
        Err(IntegerOverflow),
    );
    of("FxMul at its end", 43, min, 65_536, Ok(min));
    of("FxDiv goes toward zero", 44, -1, 131_072, Ok(0));
    of("FxDiv at the lower end", 44, 32_768, -1, Ok(min));
    of("FxDiv past the upper", 44, 32_768, 1, Err(IntegerOverflow));
    of("FxDiv by zero", 44, 1, 0, Err(DivisionByZero));
    of("FxAdd past the type", 41, i32::MAX, 1, Err(IntegerOverflow));
    of("FxSub at its end", 42, min + 1, 1, Ok(min));
    let mut of = |about, operands, trap| operation(list, about, 44, operands, Err(trap));
    let wrong = [boolean(true), fixed(0)];
    of("FxDiv looks at lhs first", wrong, TypeMismatch);
    let wrong = [fixed(1), signed(0)];
    of("FxDiv by another type", wrong, TypeMismatch);
    let words = [fixed(-1), fixed(1)];
    operation(list, "FxLt is signed", 46, words, Ok(boolean(true)));
}

fn integers(list: &mut List) {
    let mut of = |about, opcode, lhs, rhs, result: Result<i32, CoreTrap>| {
        let operands = [signed(lhs), signed(rhs)];
        operation(list, about, opcode, operands, result.map(signed));
    };
    of(
        "I32Div past the type",
        26,
        i32::MIN,
        -1,
        Err(IntegerOverflow),
    );
    of("I32Div goes toward zero", 26, -7, 2, Ok(-3));
    of("I32Mul at its end", 25, -32_768, 65_536, Ok(i32::MIN));
    of("I32Mul past it", 25, 32_768, 65_536, Err(IntegerOverflow));
    of("I32Sub past it", 24, i32::MIN, 1, Err(IntegerOverflow));
    let mut of = |about, opcode, lhs, rhs, result: Result<u32, CoreTrap>| {
        let operands = [unsigned(lhs), unsigned(rhs)];
        operation(list, about, opcode, operands, result.map(unsigned));
    };
    of("U32Sub below zero", 33, 1, 2, Err(IntegerOverflow));
    of("U32Mul at its end", 34, 65_535, 65_537, Ok(u32::MAX));
    of("U32Mul past it", 34, 65_536, 65_536, Err(IntegerOverflow));
    of("U32Div is unsigned", 35, u32::MAX, 2, Ok(2_147_483_647));
    let words = [unsigned(1 << 31), unsigned(1)];
    operation(list, "U32Gt is unsigned", 39, words, Ok(boolean(true)));
    let words = [signed(i32::MIN), signed(1)];
    operation(list, "I32Gt is signed", 30, words, Ok(boolean(false)));
    let words = [boolean(true), signed(0)];
    let zero = Err(DivisionByZero);
    operation(list, "I32Div looks at rhs first", 26, words, zero);
    let words = [boolean(true), unsigned(1)];
    operation(list, "then at lhs", 35, words, Err(TypeMismatch));
    let words = [unsigned(1), signed(0)];
    operation(list, "a zero of another type", 35, words, Err(TypeMismatch));
}

fn quads_and_bools(list: &mut List) {
    let mut of = |about, opcode, lhs, rhs, result| {
        operation(list, about, opcode, [quad(lhs), quad(rhs)], Ok(result));
    };
    of("join", 10, 1, 2, quad(3));
    of("meet", 11, 3, 2, quad(2));
    of("QImpl of T and N", 12, 2, 0, quad(1));
    of("QImpl of S and T", 12, 3, 2, quad(3));
    of("QNe", 14, 1, 1, boolean(false));
    let falsehood = [boolean(false), signed(7)];
    let result = Ok(boolean(false));
    operation(list, "And with a false lhs", 19, falsehood, result);
    let truth = [boolean(true), signed(7)];
    operation(list, "Or with a true lhs", 20, truth, Ok(boolean(true)));
    let wrong = Err(TypeMismatch);
    operation(list, "And with a true lhs", 19, truth, wrong);
    operation(list, "Or with a false lhs", 20, falsehood, wrong);
    let instrs = [load(4, 0, 1, 0), two(9, 1, 0), two(15, 2, 1), ret(2)];
    let registers = [quad(1), quad(2), boolean(true)];
    list.single(
        "an inverse, which is known",
        &instrs,
        returned(boolean(true), 4),
        3,
        &registers,
    );
}

/// Two faults each, of which the earlier one is the answer: lhs, rhs, the
/// operation, dst. Register 0 is I32, 1 Bool, 9 missing.
fn order_of_operands(list: &mut List) {
    let mut of = |about, record, trap| {
        let instrs = [load(6, 0, 0, 0x7fff_ffff), load(5, 1, 1, 0), record];
        let registers = [signed(i32::MAX), boolean(true)];
        list.single(about, &instrs, trapped(trap, 3), 2, &registers);
    };
    of(
        "lhs missing, rhs wrong",
        three(23, 0, 9, 1),
        InvalidRegister,
    );
    of("lhs wrong, rhs missing", three(23, 0, 1, 9), TypeMismatch);
    of("rhs missing, dst too", three(23, 9, 0, 9), InvalidRegister);
    of("the sum before dst", three(23, 9, 0, 0), IntegerOverflow);
    of("dst last", three(27, 9, 0, 0), InvalidRegister);
    of(
        "rhs missing, lhs wrong",
        three(26, 0, 1, 9),
        InvalidRegister,
    );
    of("rhs wrong, lhs missing", three(26, 0, 9, 1), TypeMismatch);
    of(
        "And reads rhs of a true lhs",
        three(19, 1, 1, 9),
        InvalidRegister,
    );
    of(
        "a condition of a wrong type",
        jump_if(52, 0, 9),
        TypeMismatch,
    );
    of(
        "a condition that is missing",
        jump_if(53, 9, 9),
        InvalidRegister,
    );
}

/// A function of no registers has none to write, read or return.
fn missing_registers(list: &mut List) {
    let missing = || trapped(InvalidRegister, 1);
    list.single(
        "a load without a dst",
        &[load(3, 0, 0, 0)],
        missing(),
        0,
        &[],
    );
    list.single("a Move without a src", &[two(50, 0, 0)], missing(), 0, &[]);
    list.single("a Ret without a src", &[ret(0)], missing(), 0, &[]);
    let instrs = [load(3, 1, 0, 0)];
    list.single("a dst right past them", &instrs, missing(), 0, &[UNIT]);
    let instrs = [load(7, 1, 0, 5), ret(1)];
    let five = unsigned(5);
    list.single(
        "the last register",
        &instrs,
        returned(five, 2),
        1,
        &[UNIT, five],
    );
    list.single(
        "a register not loaded",
        &[ret(0)],
        returned(UNIT, 1),
        0,
        &[UNIT],
    );
}

fn places(list: &mut List) {
    let mut of = |about, instrs: &[Record], answer: Answer, place| {
        list.single(about, instrs, answer, place, &[]);
    };
    of("no instructions", &[], trapped(InvalidPc, 0), 0);
    of("past the last one", &[plain(0)], trapped(InvalidPc, 1), 1);
    of("a jump to the length", &[jump(1)], trapped(InvalidPc, 1), 1);
    let far = u64::from(u32::MAX);
    of(
        "a jump past any",
        &[jump(u32::MAX)],
        trapped(InvalidPc, 1),
        far,
    );
    let instrs = [jump(65_536), plain(1)];
    of(
        "one that 16 bits make 0",
        &instrs,
        trapped(InvalidPc, 1),
        65_536,
    );
    of(
        "a jump to itself",
        &[jump(0)],
        trapped(FuelExceeded, 100),
        0,
    );
    let instrs = [jump(2), plain(1), jump(3)];
    of("over a Trap", &instrs, trapped(InvalidPc, 2), 3);
    let mut of = |about, opcode, small, answer, place| {
        let instrs = [load(5, 0, small, 0), jump_if(opcode, 0, 9), ret(0)];
        let truth = boolean(small == 1);
        list.single(about, &instrs, answer, place, &[truth]);
    };
    of("JumpIfTrue, true", 52, 1, trapped(InvalidPc, 2), 9);
    of("JumpIfTrue, false", 52, 0, returned(boolean(false), 3), 2);
    of("JumpIfFalse, true", 53, 1, returned(boolean(true), 3), 2);
    of("JumpIfFalse, false", 53, 0, trapped(InvalidPc, 2), 9);
}

/// More instructions than 16 bits can number.
fn far_places(list: &mut List) {
    let mut instrs = vec![plain(0); 70_000];
    instrs[0] = jump(69_998);
    instrs[69_998] = load(7, 0, 0, 3);
    let answer = trapped(InvalidPc, 3);
    list.single("far instructions", &instrs, answer, 70_000, &[unsigned(3)]);
    instrs[69_999] = ret(0);
    let answer = returned(unsigned(3), 3);
    list.single("a far Ret", &instrs, answer, 69_999, &[unsigned(3)]);
}

fn fuel(list: &mut List) {
    let mut of = |about, instrs: &[Record], fuel, answer, place| {
        let image = function(1, instrs);
        let after = (&[[0, place, 0, 0]][..], &[UNIT][..]);
        list.add(about, (image, fuel, 1), (4, 1), answer, after);
    };
    let out = |used| trapped(FuelExceeded, used);
    of(
        "fuel 0, place at the length",
        &[],
        0,
        trapped(InvalidPc, 0),
        0,
    );
    of("fuel 0, place inside", &[ret(0)], 0, out(0), 0);
    of("fuel 1 for a Ret", &[ret(0)], 1, returned(UNIT, 1), 0);
    let two = [plain(0), ret(0)];
    of("fuel 1 for two", &two, 1, out(1), 1);
    of("fuel 2 for two", &two, 2, returned(UNIT, 2), 1);
    let large = 1 << 32;
    of(
        "fuel that 32 bits make 0",
        &two,
        large,
        returned(UNIT, 2),
        1,
    );
    of(
        "all the fuel there is",
        &two,
        u64::MAX,
        returned(UNIT, 2),
        1,
    );
    let nop = [plain(0)];
    of(
        "fuel 1, then past the last",
        &nop,
        1,
        trapped(InvalidPc, 1),
        1,
    );
    let round = [plain(0), plain(0), jump(0)];
    of("a loop", &round, 1_000, out(1_000), 1);
    let trap = [plain(1)];
    of("a Trap without fuel", &trap, 0, out(0), 0);
    of("a Trap with fuel", &trap, 1, trapped(ExplicitTrap, 1), 0);
}

fn asserts_and_traps(list: &mut List) {
    let asserted = |small| [load(5, 0, small, 0), Record { a: 0, ..plain(2) }, ret(0)];
    let mut of = |about, small, answer, place| {
        let truth = boolean(small == 1);
        list.single(about, &asserted(small), answer, place, &[truth]);
    };
    of("an Assert that holds", 1, returned(boolean(true), 3), 2);
    of("one that fails", 0, trapped(AssertFailed, 2), 1);
    let assert = [plain(2)];
    list.single("one of Unit", &assert, trapped(TypeMismatch, 1), 0, &[UNIT]);
    let answer = trapped(InvalidRegister, 1);
    list.single("one of nothing", &assert, answer, 0, &[]);
    let answer = trapped(ExplicitTrap, 2);
    list.single("a Trap", &[plain(0), plain(1)], answer, 1, &[UNIT]);
}
