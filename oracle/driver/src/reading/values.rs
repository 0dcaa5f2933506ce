//! What the opcodes 3 to 50 make of register words.
//!
//! Numbers are taken into 128 bits, where no operation leaves the range; a
//! result goes back only if its type holds it.

use semantic_core_runtime::CoreTrap;

use crate::image::Record;
use crate::word::{word, BOOL, FX, I32, QUAD, U32};

/// What reading a register gives.
type Value = Result<u64, CoreTrap>;

/// Fx counts in units of 1/65,536.
const ONE: i128 = 65_536;

/// The result of a load, an operation or a Move. Operands are read in document
/// 01's order, since the first that is missing or of a wrong type decides.
pub fn result(record: Record, read: impl Fn(u16) -> Value) -> Value {
    let opcode = record.opcode;
    let (lhs, rhs) = (|| read(record.b), || read(record.c));
    match opcode {
        3..=8 => Ok(loaded(record)),
        9 | 15..=17 => Ok(of_one_quad(opcode, payload(lhs()?, QUAD)?)),
        10..=14 => {
            let lhs = payload(lhs()?, QUAD)?;
            Ok(of_quads(opcode, lhs, payload(rhs()?, QUAD)?))
        }
        18 => Ok(boolean(!truth(lhs()?)?)),
        19 | 20 => short_circuit(opcode, truth(lhs()?)?, rhs),
        21 | 22 => {
            let lhs = truth(lhs()?)?;
            Ok(boolean((lhs == truth(rhs()?)?) == (opcode == 21)))
        }
        26 | 35 => divided(own_kind(opcode), lhs, rhs),
        50 => lhs(),
        _ => {
            let kind = own_kind(opcode);
            let lhs = number(lhs()?, kind)?;
            of_numbers(kind, in_group(opcode), lhs, number(rhs()?, kind)?)
        }
    }
}

/// The opcodes 23 to 49 are nine operations on each of three types.
fn own_kind(opcode: u8) -> u64 {
    match opcode {
        23..=31 => I32,
        32..=40 => U32,
        _ => FX,
    }
}

/// Add, subtract, multiply, divide, then equal, less, at most, more, at least.
fn in_group(opcode: u8) -> u8 {
    (opcode - 23) % 9
}

fn loaded(record: Record) -> u64 {
    let kind = u64::from(record.opcode - 3);
    match kind {
        QUAD | BOOL => word(kind, record.small.into()),
        _ => word(kind, record.w),
    }
}

fn boolean(truth: bool) -> u64 {
    word(BOOL, truth.into())
}

/// The payload of a word that must be of this kind.
fn payload(word: u64, kind: u64) -> Result<u32, CoreTrap> {
    if word >> 32 != kind {
        return Err(CoreTrap::TypeMismatch);
    }
    Ok(word as u32)
}

pub fn truth(word: u64) -> Result<bool, CoreTrap> {
    Ok(payload(word, BOOL)? == 1)
}

fn number(word: u64, kind: u64) -> Result<i128, CoreTrap> {
    let payload = payload(word, kind)?;
    Ok(match kind {
        U32 => payload.into(),
        _ => (payload as i32).into(),
    })
}

/// The word of a number, if its type holds it.
fn fitting(kind: u64, number: i128) -> Value {
    let payload = match kind {
        U32 => u32::try_from(number).ok(),
        _ => i32::try_from(number).ok().map(|number| number as u32),
    };
    let payload = payload.ok_or(CoreTrap::IntegerOverflow)?;
    Ok(word(kind, payload))
}

/// N 0, F 1, T 2, S 3: inverse exchanges F and T.
fn inverse(quad: u32) -> u32 {
    match quad {
        1 => 2,
        2 => 1,
        other => other,
    }
}

fn of_one_quad(opcode: u8, quad: u32) -> u64 {
    match opcode {
        9 => word(QUAD, inverse(quad)),
        15 => boolean(quad == 1 || quad == 2),
        16 => boolean(quad == 3),
        _ => boolean(quad == 0),
    }
}

fn of_quads(opcode: u8, lhs: u32, rhs: u32) -> u64 {
    match opcode {
        10 => word(QUAD, lhs | rhs),
        11 => word(QUAD, lhs & rhs),
        12 => word(QUAD, inverse(lhs) | rhs),
        13 => boolean(lhs == rhs),
        _ => boolean(lhs != rhs),
    }
}

/// And with a false lhs and Or with a true one never read rhs.
fn short_circuit(opcode: u8, lhs: bool, rhs: impl Fn() -> Value) -> Value {
    let decided = lhs == (opcode == 20);
    Ok(boolean(if decided { lhs } else { truth(rhs()?)? }))
}

/// The integer divisions look at rhs first.
fn divided(kind: u64, lhs: impl Fn() -> Value, rhs: impl Fn() -> Value) -> Value {
    let rhs = number(rhs()?, kind)?;
    if rhs == 0 {
        return Err(CoreTrap::DivisionByZero);
    }
    fitting(kind, number(lhs()?, kind)? / rhs)
}

fn of_numbers(kind: u64, operation: u8, lhs: i128, rhs: i128) -> Value {
    match operation {
        0 => fitting(kind, lhs + rhs),
        1 => fitting(kind, lhs - rhs),
        2 if kind == FX => fitting(kind, (lhs * rhs).div_euclid(ONE)),
        2 => fitting(kind, lhs * rhs),
        3 if rhs == 0 => Err(CoreTrap::DivisionByZero),
        // Only FxDiv: the others are `divided`.
        3 => fitting(kind, lhs * ONE / rhs),
        4 => Ok(boolean(lhs == rhs)),
        5 => Ok(boolean(lhs < rhs)),
        6 => Ok(boolean(lhs <= rhs)),
        7 => Ok(boolean(lhs > rhs)),
        _ => Ok(boolean(lhs >= rhs)),
    }
}
