//! Operands out of place in a program that was in order: on the edge, one past
//! it, and as far off as the field goes.
//!
//! Most programs get none or one. Some get two or three, since only then does
//! the order of the checks show.

use crate::fields::{self, Field};
use crate::image::Record;
use crate::program::{Function, Program};
use crate::random::SplitMix64;
use crate::records::{jump, plain};

/// Where an instruction stands: its function, and its place in there.
type Place = (usize, usize);

/// Puts none, one or a few things out of place.
pub fn some(random: &mut SplitMix64, program: &mut Program) {
    let count = match random.below(20) {
        0..=9 => 0,
        10..=16 => 1,
        17 | 18 => 2,
        _ => 3,
    };
    for _ in 0..count {
        one(random, program);
    }
}

/// What has no such operand stays as it is.
fn one(random: &mut SplitMix64, program: &mut Program) -> Option<()> {
    match random.below(24) {
        0..=4 => register(random, program),
        5..=8 => whole_instruction(random, program),
        9..=11 => jump_target(random, program),
        12 | 13 => call_target(random, program),
        14..=16 => window(random, program),
        17 | 18 => argument_count(random, program),
        19 => no_return(random, program),
        20 => entry(random, program),
        21 => no_functions(program),
        22 => some_function(random, program).map(|function| function.regs = 0),
        _ => some_function(random, program).map(|function| function.instrs.clear()),
    }
}

/// Lets one operand that is read be any register, whatever its type. Admission
/// looks at no types, so only a run can show it.
pub fn any_type(random: &mut SplitMix64, program: &mut Program) -> Option<()> {
    let place = find(random, program, |record| {
        fields::registers(record.opcode).len() > 1
    })?;
    let regs = program.functions[place.0].regs;
    let record = at(program, place);
    let field = random.pick(&fields::registers(record.opcode)[1..])?;
    field.set(record, random.index(usize::from(regs).max(1)) as u32);
    Some(())
}

/// Lets one or two things about a Call be out of place: where its result goes,
/// whom it calls, an empty window, which may stand anywhere, or one too large.
pub fn any_call(random: &mut SplitMix64, program: &mut Program) -> Option<()> {
    let place = find(random, program, is_call)?;
    let count = program.functions.len();
    let regs = program.functions[place.0].regs;
    let call = at(program, place);
    for _ in 0..random.between(1, 2) {
        match random.below(4) {
            0 => call.a = off_registers(random, regs) as u16,
            1 => call.b = off_functions(random, count),
            2 => (call.c, call.w) = (off_registers(random, regs) as u16, 0),
            _ => call.w = u32::from(regs.saturating_add(1)),
        }
    }
    Some(())
}

/// Lets a function jump over its last instruction, if that is a Ret, to a Nop
/// behind it. Admission asks for a Ret anywhere, so only a run can show it.
pub fn past_the_end(random: &mut SplitMix64, program: &mut Program) -> Option<()> {
    let instrs = &mut some_function(random, program)?.instrs;
    let behind = instrs.len() as u32 + 1;
    let last = instrs.last_mut().filter(|record| record.opcode == 55)?;
    let ret = std::mem::replace(last, jump(behind));
    instrs.extend([ret, plain(0)]);
    Some(())
}

fn register(random: &mut SplitMix64, program: &mut Program) -> Option<()> {
    let place = some_instruction(random, program)?;
    let regs = program.functions[place.0].regs;
    let record = at(program, place);
    let field = random.pick(fields::registers(record.opcode))?;
    field.set(record, off_registers(random, regs));
    Some(())
}

fn jump_target(random: &mut SplitMix64, program: &mut Program) -> Option<()> {
    let place = find(random, program, |record| fields::jumps(record.opcode))?;
    let length = program.functions[place.0].instrs.len();
    at(program, place).w = off_length(random, length);
    Some(())
}

fn call_target(random: &mut SplitMix64, program: &mut Program) -> Option<()> {
    let place = find(random, program, is_call)?;
    let count = program.functions.len();
    at(program, place).b = off_functions(random, count);
    Some(())
}

/// A Call's window ends at the caller's registers or one past them, or its end
/// would look small in 16 bits.
fn window(random: &mut SplitMix64, program: &mut Program) -> Option<()> {
    let place = find(random, program, is_call)?;
    let regs = u32::from(program.functions[place.0].regs);
    let call = at(program, place);
    let past = random.below(3).min(1) as u32;
    let (base, count) = match random.below(6) {
        0..=2 => ((regs + past).checked_sub(call.w)?, call.w),
        3 | 4 => (call.c.into(), (regs + past).checked_sub(call.c.into())?),
        _ => random.one_of([(65_535, 1), (65_535, 2), (1, 65_535), (65_535, 65_535)]),
    };
    call.c = base.min(65_535) as u16;
    call.w = count.min(65_535);
    Some(())
}

/// As many arguments as the callee has registers, or one more. The caller is
/// given room for them, so that the callee alone decides.
fn argument_count(random: &mut SplitMix64, program: &mut Program) -> Option<()> {
    let place = find(random, program, is_call)?;
    let callee = usize::from(at(program, place).b);
    let callee = program.functions.get(callee)?;
    let count = callee.regs.saturating_add(random.below(2) as u16);
    let caller = &mut program.functions[place.0];
    caller.regs = caller.regs.max(count);
    let call = at(program, place);
    (call.c, call.w) = (0, count.into());
    Some(())
}

/// Takes every Ret out of a function. A Nop in its place keeps the length, and
/// so the jumps; without one a jump to the last Ret goes past the end.
fn no_return(random: &mut SplitMix64, program: &mut Program) -> Option<()> {
    let shorter = random.once_in(3);
    let function = some_function(random, program)?;
    if shorter {
        function.instrs.retain(|record| record.opcode != 55);
    }
    for record in &mut function.instrs {
        if record.opcode == 55 {
            *record = plain(0);
        }
    }
    Some(())
}

fn entry(random: &mut SplitMix64, program: &mut Program) -> Option<()> {
    program.entry = off_functions(random, program.functions.len());
    Some(())
}

fn no_functions(program: &mut Program) -> Option<()> {
    program.functions.clear();
    Some(())
}

/// Each operand of one instruction with an even chance: which of them is named
/// shows the order inside an instruction.
fn whole_instruction(random: &mut SplitMix64, program: &mut Program) -> Option<()> {
    let place = some_instruction(random, program)?;
    let count = program.functions.len();
    let Function { regs, instrs, .. } = &program.functions[place.0];
    let (regs, length) = (*regs, instrs.len());
    let record = at(program, place);
    let opcode = record.opcode;
    for field in fields::used(opcode) {
        let value = match (opcode, field) {
            (54, Field::B) => off_functions(random, count).into(),
            (54, Field::W) => (u32::from(regs) + 1).min(65_535),
            (51..=53, Field::W) => off_length(random, length),
            (_, Field::A | Field::B | Field::C) => off_registers(random, regs),
            // What a load loads has no place to be out of.
            (_, Field::Small | Field::W) => continue,
        };
        if random.once_in(2) {
            field.set(record, value);
        }
    }
    Some(())
}

/// The last register, the first past it, the next one, the first that would
/// look small in 8 bits, and the first and last that would be negative.
fn off_registers(random: &mut SplitMix64, regs: u16) -> u32 {
    let inside = regs.saturating_sub(1);
    let past = regs.saturating_add(1);
    u32::from(random.one_of([inside, regs, regs, past, 256, 32_768, 65_535]))
}

/// The same for a jump; 65,536 would look small in 16 bits.
fn off_length(random: &mut SplitMix64, length: usize) -> u32 {
    let length = length as u32;
    let inside = length.saturating_sub(1);
    random.one_of([
        inside,
        length,
        length,
        length + 1,
        65_536,
        1 << 31,
        u32::MAX,
    ])
}

fn off_functions(random: &mut SplitMix64, count: usize) -> u16 {
    let count = count.min(65_534) as u16;
    random.one_of([count, count, count + 1, 65_535])
}

fn is_call(record: &Record) -> bool {
    record.opcode == 54
}

fn some_function<'a>(
    random: &mut SplitMix64,
    program: &'a mut Program,
) -> Option<&'a mut Function> {
    let count = program.functions.len().max(1);
    program.functions.get_mut(random.index(count))
}

/// An instruction of any opcode that has operands, each opcode with the same
/// chance: loads are many, and would else get nearly all of it. What the
/// program has not got is put behind a function's last instruction.
fn some_instruction(random: &mut SplitMix64, program: &mut Program) -> Option<Place> {
    let opcode = random.between(2, 55) as u8;
    let found = find(random, program, |record| record.opcode == opcode);
    found.or_else(|| append(random, program, opcode))
}

fn append(random: &mut SplitMix64, program: &mut Program, opcode: u8) -> Option<Place> {
    let count = program.functions.len();
    let number = random.index(count.max(1));
    let Function { regs, instrs, .. } = program.functions.get_mut(number)?;
    let mut record = plain(opcode);
    for field in fields::registers(opcode) {
        field.set(&mut record, random.index(usize::from(*regs).max(1)) as u32);
    }
    match opcode {
        51..=53 => record.w = random.index(instrs.len() + 1) as u32,
        54 => record.b = random.index(count) as u16,
        _ => {}
    }
    instrs.push(record);
    Some((number, instrs.len() - 1))
}

/// Any one of the instructions that are wanted, each with the same chance.
fn find(
    random: &mut SplitMix64,
    program: &Program,
    wanted: impl Fn(&Record) -> bool,
) -> Option<Place> {
    let places = || {
        program
            .functions
            .iter()
            .enumerate()
            .flat_map(|(number, function)| {
                let instrs = function.instrs.iter().enumerate();
                instrs.map(move |(place, record)| ((number, place), record))
            })
    };
    let found = places().filter(|(_, record)| wanted(record)).count();
    let chosen = random.index(found.max(1));
    let mut places = places().filter(|(_, record)| wanted(record));
    places.nth(chosen).map(|(place, _)| place)
}

fn at(program: &mut Program, (function, place): Place) -> &mut Record {
    &mut program.functions[function].instrs[place]
}
