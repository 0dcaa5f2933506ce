//! The kinds of values and the numbers of each at which results change.

use crate::word::{word, BOOL, FX, I32, QUAD, U32, UNIT};

/// Every kind that an instruction can load.
pub const KINDS: [u64; 6] = [UNIT, QUAD, BOOL, I32, U32, FX];

/// 46,340 is the largest number whose square fits; 32,768 times 65,536 is the
/// first power of two that does not, while its negative does.
const I32_EDGES: [i32; 15] = [
    i32::MIN,
    i32::MIN + 1,
    -65_536,
    -46_341,
    -32_768,
    -2,
    -1,
    0,
    1,
    2,
    32_768,
    46_340,
    65_536,
    i32::MAX - 1,
    i32::MAX,
];

/// 65,535 times 65,537 is the largest number of all, 65,536 squared one more.
const U32_EDGES: [u32; 12] = [
    0,
    1,
    2,
    3,
    65_535,
    65_536,
    65_537,
    (1 << 31) - 1,
    1 << 31,
    (1 << 31) + 1,
    u32::MAX - 1,
    u32::MAX,
];

/// Raw units: 65,536 is one, 32,768 a half, 131,072 two.
const FX_EDGES: [i32; 15] = [
    i32::MIN,
    i32::MIN + 1,
    -131_072,
    -65_537,
    -65_536,
    -32_768,
    -1,
    0,
    1,
    32_768,
    65_535,
    65_536,
    131_072,
    i32::MAX - 1,
    i32::MAX,
];

/// The register words of a kind's edge values.
pub fn edges(kind: u64) -> Vec<u64> {
    let payloads: Vec<u32> = match kind {
        QUAD => (0..4).collect(),
        BOOL => (0..2).collect(),
        I32 => I32_EDGES.iter().map(|edge| *edge as u32).collect(),
        U32 => U32_EDGES.to_vec(),
        FX => FX_EDGES.iter().map(|edge| *edge as u32).collect(),
        _ => vec![0],
    };
    payloads
        .into_iter()
        .map(|payload| word(kind, payload))
        .collect()
}

/// The kind of an opcode's operands. Move takes any.
pub fn own_kind(opcode: u8) -> Option<u64> {
    match opcode {
        9..=17 => Some(QUAD),
        18..=22 => Some(BOOL),
        23..=31 => Some(I32),
        32..=40 => Some(U32),
        41..=49 => Some(FX),
        _ => None,
    }
}
