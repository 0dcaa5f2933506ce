//! The operations of the fixed list. They depend on nothing but this file, the
//! edges and the generator: edge values, kinds and missing registers in full,
//! then random pairs from a fixed seed.

use std::collections::HashSet;

use crate::edges::{edges, own_kind, KINDS};
use crate::operate::{one_operand, Case};
use crate::random::SplitMix64;
use crate::word::{word, BOOL, FX, I32, QUAD, U32, UNIT};

const RANDOM_PAIRS: usize = 3_000;
const SEED: u64 = 0x6b6e_6974_0000_0001;

/// All cases in their order, each one once.
pub fn all() -> Vec<Case> {
    let mut list = List::default();
    add_loads(&mut list);
    for opcode in 9..=50 {
        add_edges(&mut list, opcode);
        add_kinds(&mut list, opcode);
        add_missing(&mut list, opcode);
    }
    add_random(&mut list);
    list.cases
}

/// Keeps the first of equal cases.
#[derive(Default)]
struct List {
    cases: Vec<Case>,
    seen: HashSet<Case>,
}

impl List {
    fn add(&mut self, case: Case) {
        if self.seen.insert(case) {
            self.cases.push(case);
        }
    }

    fn add_pair(&mut self, opcode: u8, lhs: Option<u64>, rhs: Option<u64>) {
        self.add(Case {
            opcode,
            small: 0,
            w: 0,
            lhs,
            rhs,
        });
    }

    fn add_load(&mut self, opcode: u8, small: u8, w: u32) {
        let unit = Some(word(UNIT, 0));
        self.add(Case {
            opcode,
            small,
            w,
            lhs: unit,
            rhs: unit,
        });
    }
}

/// The values that a load carries, each where document 01 puts it.
fn add_loads(list: &mut List) {
    for (opcode, kind) in (3..=8).zip(KINDS) {
        for edge in edges(kind) {
            let payload = edge as u32;
            match kind {
                QUAD | BOOL => list.add_load(opcode, payload as u8, 0),
                _ => list.add_load(opcode, 0, payload),
            }
        }
    }
}

/// Every pair of edges of the opcode's own type; for an opcode that reads one
/// register, every edge of every kind.
fn add_edges(list: &mut List, opcode: u8) {
    if one_operand(opcode) {
        for edge in KINDS.into_iter().flat_map(edges) {
            list.add_pair(opcode, Some(edge), Some(word(UNIT, 0)));
        }
        return;
    }
    let edges = own_kind(opcode).map(edges).unwrap_or_default();
    for lhs in &edges {
        for rhs in &edges {
            list.add_pair(opcode, Some(*lhs), Some(*rhs));
        }
    }
}

/// Every pair of kinds, with zero and non-zero payloads on both sides: which
/// trap comes first may hang on a zero of the right or the wrong type.
fn add_kinds(list: &mut List, opcode: u8) {
    for lhs in representatives() {
        for rhs in representatives() {
            list.add_pair(opcode, Some(lhs), Some(rhs));
        }
    }
}

/// Every way to miss a register, with each kind on the other side.
fn add_missing(list: &mut List, opcode: u8) {
    for present in representatives() {
        list.add_pair(opcode, None, Some(present));
        list.add_pair(opcode, Some(present), None);
    }
    list.add_pair(opcode, None, None);
}

/// Each opcode in its turn, until the list has as many pairs more as are
/// wanted: those of Quad and Bool are soon all there, the others never.
fn add_random(list: &mut List) {
    let mut random = SplitMix64(SEED);
    let wanted = list.cases.len() + RANDOM_PAIRS;
    for opcode in (9..=50).cycle() {
        if list.cases.len() == wanted {
            return;
        }
        let lhs = operand(&mut random, opcode);
        let rhs = operand(&mut random, opcode);
        list.add_pair(opcode, Some(lhs), Some(rhs));
    }
}

/// For each kind one zero and one non-zero payload; Unit has only the one.
fn representatives() -> [u64; 11] {
    [
        word(UNIT, 0),
        word(QUAD, 0),
        word(QUAD, 2),
        word(BOOL, 0),
        word(BOOL, 1),
        word(I32, 0),
        word(I32, 5),
        word(U32, 0),
        word(U32, 5),
        word(FX, 0),
        word(FX, 98_304),
    ]
}

/// An operand of the opcode's own kind, but for one in sixteen.
fn operand(random: &mut SplitMix64, opcode: u8) -> u64 {
    let any = KINDS[random.below(6) as usize];
    let stray = random.below(16) == 0;
    let kind = own_kind(opcode).filter(|_| !stray).unwrap_or(any);
    let payload = match kind {
        UNIT => 0,
        QUAD => random.below(4) as u32,
        BOOL => random.below(2) as u32,
        _ => payload(random, kind),
    };
    word(kind, payload)
}

/// Half of them over the full range. The rest have few bits, so that products
/// fit, quotients are not all 0 and equal operands occur; signed kinds take
/// both signs.
fn payload(random: &mut SplitMix64, kind: u64) -> u32 {
    let full = random.next() as u32;
    if random.below(2) == 0 {
        return full;
    }
    let small = full >> (1 + random.below(31));
    let negative = kind != U32 && random.below(2) == 0;
    if negative {
        small.wrapping_neg()
    } else {
        small
    }
}

#[cfg(test)]
mod tests;
