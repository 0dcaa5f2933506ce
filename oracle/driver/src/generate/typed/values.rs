//! The values that loads carry: mostly small, so that sums and products fit,
//! with the edges of each type among them.

use crate::edges::edges;
use crate::image::Record;
use crate::random::SplitMix64;
use crate::records::load;
use crate::word::{BOOL, FX, I32, QUAD, U32, UNIT};

/// The payload of a value of this kind.
pub fn any(random: &mut SplitMix64, kind: u64) -> u32 {
    match kind {
        UNIT => 0,
        QUAD => random.below(4) as u32,
        BOOL => random.below(2) as u32,
        _ if random.once_in(12) => random.pick(&edges(kind)).unwrap_or(0) as u32,
        _ if random.once_in(40) => random.next() as u32,
        _ => small(random, kind),
    }
}

/// A small number that is not 0, for what is divided by and added often.
pub fn step(random: &mut SplitMix64, kind: u64) -> u32 {
    match kind {
        I32 | U32 | FX => loop {
            let payload = small(random, kind);
            if payload != 0 {
                return payload;
            }
        },
        _ => any(random, kind),
    }
}

/// Fx in quarters: raw units alone would be next to nothing.
fn small(random: &mut SplitMix64, kind: u64) -> u32 {
    let below_41 = random.below(41) as u32;
    match kind {
        U32 => below_41,
        FX => below_41.wrapping_sub(20).wrapping_mul(16_384),
        _ => below_41.wrapping_sub(20),
    }
}

/// Whether adding it a few hundred times, or taking it times another such
/// number, stays inside the type.
pub fn is_small(kind: u64, payload: u32) -> bool {
    match kind {
        U32 => payload <= 1_000,
        FX => (payload as i32).unsigned_abs() <= 20 * 65_536,
        _ => (payload as i32).unsigned_abs() <= 1_000,
    }
}

/// The instruction that loads it, the value being where document 01 puts it.
pub fn loading(kind: u64, dst: u16, payload: u32) -> Record {
    let opcode = 3 + kind as u8;
    match kind {
        QUAD | BOOL => load(opcode, dst, payload as u8, 0),
        _ => load(opcode, dst, 0, payload),
    }
}
