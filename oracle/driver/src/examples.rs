//! Programs for people to look at and to run: what `oracle images` writes.
//!
//! Each stands here as a program of the Rust's own types. A rule has its names
//! of registers beside it, so that a listing can speak in them.

use semantic_core_exec::{CoreFunction, CoreProgram, Fx, Instr, RegId};
use semantic_core_quad::QuadState;
use semantic_core_runtime::{FunctionId, SymbolId};

use crate::encode;

/// An image with its file's name and what it is.
pub struct Example {
    pub file: &'static str,
    pub about: &'static str,
    pub image: Vec<u8>,
    /// The functions; none for what is no image any more.
    pub rules: Vec<Rule>,
}

/// A function, what it stands for, and what its registers hold, the arguments
/// first.
pub struct Rule {
    pub about: &'static str,
    pub registers: Vec<&'static str>,
    pub instrs: Vec<Instr>,
}

/// One of the Rust's instructions on one line.
macro_rules! instr {
    ($name:ident $($field:ident = $value:expr),*) => {
        Instr::$name { $($field: $value),* }
    };
}

pub fn all() -> Vec<Example> {
    vec![
        program(
            "counting-loop.image",
            "a loop that sums the numbers from 1 to 1000; the sum is a U32",
            vec![counting_loop()],
        ),
        program(
            "lesson-cover.image",
            "a rule of five functions: how many minutes of a lesson have to be covered, a U32",
            lesson_cover(),
        ),
        program(
            "room-share.image",
            "what a class pays of the hire of a hall that three share by minutes: 22.38, \
             as an Fx in 65,536ths",
            vec![room_share()],
        ),
        program(
            "refused-upload.image",
            "an upload that must not run: it names a register that its function does not have",
            vec![refused_upload()],
        ),
        program(
            "endless.image",
            "a rule that waits for ever; the fuel ends it",
            vec![endless()],
        ),
        damaged(),
        wrong_opcode(),
    ]
}

fn program(file: &'static str, about: &'static str, rules: Vec<Rule>) -> Example {
    let functions = (1..).zip(&rules).map(|(name, rule)| CoreFunction {
        name_id: SymbolId(name),
        regs: rule.registers.len() as u16,
        instrs: rule.instrs.clone(),
    });
    let program = CoreProgram {
        functions: functions.collect(),
        entry: FunctionId(0),
    };
    Example {
        file,
        about,
        image: encode::image(&program),
        rules,
    }
}

/// The registers that go by these names.
fn numbered<const N: usize>(_names: &[&str; N]) -> [RegId; N] {
    std::array::from_fn(|number| RegId(number as u16))
}

/// Fx by its number of 1/100ths, which is exact for quarters.
fn hundredths(number: i32) -> Fx {
    Fx::from_raw(number * Fx::SCALE / 100)
}

fn counting_loop() -> Rule {
    let names = ["sum", "number", "last", "one", "more"];
    let [sum, number, last, one, more] = numbered(&names);
    let instrs = vec![
        instr!(LoadU32 dst = sum, value = 0),
        instr!(LoadU32 dst = number, value = 0),
        instr!(LoadU32 dst = last, value = 1_000),
        instr!(LoadU32 dst = one, value = 1),
        instr!(U32Add dst = number, lhs = number, rhs = one),
        instr!(U32Add dst = sum, lhs = sum, rhs = number),
        instr!(U32Lt dst = more, lhs = number, rhs = last),
        instr!(JumpIfTrue cond = more, target = 4),
        instr!(Ret src = sum),
    ];
    Rule {
        about: "sums up",
        registers: names.to_vec(),
        instrs,
    }
}

/// Cover for one lesson: a class of 24, whose teacher is ill, is to be taken
/// for 50 minutes by a colleague whose week has 4.75 days of work already.
fn lesson_cover() -> Vec<Rule> {
    vec![
        lesson(),
        cover_is_needed(),
        colleague_may(),
        minutes_to_cover(),
        whole_quarters(),
    ]
}

/// The entry: what is known of the lesson, and who is asked about it. The
/// office says that the teacher is absent (T), the staff room has heard nothing
/// (N); both reports joined are what is known.
fn lesson() -> Rule {
    let names = [
        "office",
        "staff room",
        "absent",
        "room",
        "pupils",
        "minutes",
        "load",
        "share",
        "needed",
        "free",
        "cover",
    ];
    let [office, staff, absent, room, pupils, minutes, load, share, needed, free, cover] =
        numbered(&names);
    let instrs = vec![
        instr!(LoadQuad dst = office, value = QuadState::T),
        instr!(LoadQuad dst = staff, value = QuadState::N),
        instr!(QJoin dst = absent, lhs = office, rhs = staff),
        instr!(LoadQuad dst = room, value = QuadState::T),
        instr!(LoadU32 dst = pupils, value = 24),
        instr!(LoadU32 dst = minutes, value = 50),
        instr!(LoadFx dst = load, value = hundredths(475)),
        instr!(LoadFx dst = share, value = hundredths(25)),
        instr!(LoadU32 dst = cover, value = 0),
        instr!(Call dst = needed, function = FunctionId(1), arg_base = absent, arg_count = 3),
        instr!(JumpIfFalse cond = needed, target = 14),
        instr!(Call dst = free, function = FunctionId(2), arg_base = load, arg_count = 2),
        instr!(Assert cond = free),
        instr!(Call dst = cover, function = FunctionId(3), arg_base = minutes, arg_count = 1),
        instr!(Ret src = cover),
    ];
    Rule {
        about: "the lesson",
        registers: names.to_vec(),
        instrs,
    }
}

/// Reports that contradict each other are for people to settle, so they trap.
/// Cover is needed if the teacher is absent, it is known whether there is a
/// room, and somebody sits in it.
fn cover_is_needed() -> Rule {
    let names = ["absent", "room", "pupils", "truth", "nobody", "test", "yes"];
    let [absent, room, pupils, truth, nobody, test, yes] = numbered(&names);
    let instrs = vec![
        instr!(QIsConflict dst = test, src = absent),
        instr!(BoolNot dst = test, src = test),
        instr!(Assert cond = test),
        instr!(LoadQuad dst = truth, value = QuadState::T),
        instr!(QEq dst = yes, lhs = absent, rhs = truth),
        instr!(QIsKnown dst = test, src = room),
        instr!(BoolAnd dst = yes, lhs = yes, rhs = test),
        instr!(LoadU32 dst = nobody, value = 0),
        instr!(U32Gt dst = test, lhs = pupils, rhs = nobody),
        instr!(BoolAnd dst = yes, lhs = yes, rhs = test),
        instr!(Ret src = yes),
    ];
    Rule {
        about: "whether cover is needed",
        registers: names.to_vec(),
        instrs,
    }
}

/// A colleague's week must not come to more than five days; the lesson is a
/// quarter of one.
fn colleague_may() -> Rule {
    let names = ["load", "share", "full", "may"];
    let [load, share, full, may] = numbered(&names);
    let instrs = vec![
        instr!(FxAdd dst = load, lhs = load, rhs = share),
        instr!(LoadFx dst = full, value = hundredths(500)),
        instr!(FxLe dst = may, lhs = load, rhs = full),
        instr!(Ret src = may),
    ];
    Rule {
        about: "whether the colleague may take it",
        registers: names.to_vec(),
        instrs,
    }
}

/// The form teacher stays for the first ten minutes; the rest is covered.
fn minutes_to_cover() -> Rule {
    let names = ["minutes", "form teacher", "rest", "cover"];
    let [minutes, form_teacher, rest, cover] = numbered(&names);
    let instrs = vec![
        instr!(LoadU32 dst = form_teacher, value = 10),
        instr!(U32Sub dst = rest, lhs = minutes, rhs = form_teacher),
        instr!(Call dst = cover, function = FunctionId(4), arg_base = rest, arg_count = 1),
        instr!(Ret src = cover),
    ];
    Rule {
        about: "the minutes to cover",
        registers: names.to_vec(),
        instrs,
    }
}

/// Cover is paid by quarters of an hour that have begun.
fn whole_quarters() -> Rule {
    let names = ["minutes", "quarter", "all but one"];
    let [minutes, quarter, all_but_one] = numbered(&names);
    let instrs = vec![
        instr!(LoadU32 dst = quarter, value = 15),
        instr!(LoadU32 dst = all_but_one, value = 14),
        instr!(U32Add dst = minutes, lhs = minutes, rhs = all_but_one),
        instr!(U32Div dst = minutes, lhs = minutes, rhs = quarter),
        instr!(U32Mul dst = minutes, lhs = minutes, rhs = quarter),
        instr!(Ret src = minutes),
    ];
    Rule {
        about: "the quarters of an hour begun, in minutes",
        registers: names.to_vec(),
        instrs,
    }
}

/// Three classes have the hall for 45, 60 and 25 minutes and pay 48.50 for it.
/// The second one's share is cut toward zero, what it pays is the floor.
fn room_share() -> Rule {
    let names = ["first", "own", "third", "all", "hire", "share", "test"];
    let [first, own, third, all, hire, share, test] = numbered(&names);
    let instrs = vec![
        instr!(LoadFx dst = first, value = hundredths(4_500)),
        instr!(LoadFx dst = own, value = hundredths(6_000)),
        instr!(LoadFx dst = third, value = hundredths(2_500)),
        instr!(FxAdd dst = all, lhs = first, rhs = own),
        instr!(FxAdd dst = all, lhs = all, rhs = third),
        instr!(LoadFx dst = hire, value = hundredths(4_850)),
        instr!(FxDiv dst = share, lhs = own, rhs = all),
        instr!(FxMul dst = share, lhs = hire, rhs = share),
        instr!(FxLt dst = test, lhs = share, rhs = hire),
        instr!(Assert cond = test),
        instr!(Ret src = share),
    ];
    Rule {
        about: "what the second class pays",
        registers: names.to_vec(),
        instrs,
    }
}

/// Whether a class is too large, put where no register is.
fn refused_upload() -> Rule {
    let names = ["pupils", "most"];
    let [pupils, most] = numbered(&names);
    let instrs = vec![
        instr!(LoadU32 dst = pupils, value = 31),
        instr!(LoadU32 dst = most, value = 28),
        instr!(U32Gt dst = RegId(9), lhs = pupils, rhs = most),
        instr!(Ret src = RegId(9)),
    ];
    Rule {
        about: "whether a class is too large",
        registers: names.to_vec(),
        instrs,
    }
}

/// Waits as long as the room is taken, and nothing ever frees it.
fn endless() -> Rule {
    let names = ["taken"];
    let [taken] = numbered(&names);
    let instrs = vec![
        instr!(LoadBool dst = taken, value = true),
        instr!(JumpIfTrue cond = taken, target = 1),
        instr!(Ret src = taken),
    ];
    Rule {
        about: "waits for the room",
        registers: names.to_vec(),
        instrs,
    }
}

fn cover_image() -> Vec<u8> {
    program("", "", lesson_cover()).image
}

fn damaged() -> Example {
    let mut image = cover_image();
    image.truncate(333);
    Example {
        file: "damaged.image",
        about: "the first 333 bytes of lesson-cover.image, as a transfer left it that broke off",
        image,
        rules: Vec::new(),
    }
}

/// The last instruction is a Ret, 55; with 64 more it is no opcode.
fn wrong_opcode() -> Example {
    let mut image = cover_image();
    let last = image.len() - 12;
    image[last] ^= 64;
    Example {
        file: "wrong-opcode.image",
        about: "lesson-cover.image with one bit turned over: the opcode of its last instruction",
        image,
        rules: Vec::new(),
    }
}

#[cfg(test)]
mod tests;
