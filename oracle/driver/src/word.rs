//! Values as numbers: the kind and payload of the digest, and the register
//! word that document 01 makes of them (kind times 2^32 plus payload).

use semantic_core_exec::CoreValue;

/// The kinds that an instruction can load. Kinds 6 to 8 exist in the digest,
/// but no instruction makes a value of them.
pub const UNIT: u64 = 0;
pub const QUAD: u64 = 1;
pub const BOOL: u64 = 2;
pub const I32: u64 = 3;
pub const U32: u64 = 4;
pub const FX: u64 = 5;

pub fn word(kind: u64, payload: u32) -> u64 {
    kind << 32 | u64::from(payload)
}

/// Kind and payload as the digest takes them; the Rust keeps its own encoding
/// private, so it is written out again and a test holds it to the digest.
pub fn kind_and_payload(value: CoreValue) -> (u64, u32) {
    match value {
        CoreValue::Unit => (UNIT, 0),
        CoreValue::Quad(quad) => (QUAD, u32::from(quad.bits())),
        CoreValue::Bool(truth) => (BOOL, u32::from(truth)),
        CoreValue::I32(number) => (I32, number as u32),
        CoreValue::U32(number) => (U32, number),
        CoreValue::Fx(number) => (FX, number.raw() as u32),
        CoreValue::Tuple(handle) => (6, handle.0),
        CoreValue::Record(handle) => (7, handle.0),
        CoreValue::Adt(handle) => (8, handle.0),
    }
}

pub fn value_word(value: CoreValue) -> u64 {
    let (kind, payload) = kind_and_payload(value);
    word(kind, payload)
}

#[cfg(test)]
mod tests {
    use super::*;
    use crate::digest::digest;
    use semantic_core_exec::{AdtRef, CoreResult, CoreResultDigest, Fx, RecordRef, TupleRef};
    use semantic_core_quad::QuadState;

    #[test]
    fn kind_and_payload_are_the_digests_second_and_third_word() {
        let values = [
            (CoreValue::Unit, (0, 0)),
            (CoreValue::Quad(QuadState::S), (1, 3)),
            (CoreValue::Bool(true), (2, 1)),
            (CoreValue::I32(-1), (3, u32::MAX)),
            (CoreValue::U32(7), (4, 7)),
            (CoreValue::Fx(Fx::from_raw(i32::MIN)), (5, 1 << 31)),
            (CoreValue::Tuple(TupleRef(1)), (6, 1)),
            (CoreValue::Record(RecordRef(2)), (7, 2)),
            (CoreValue::Adt(AdtRef(3)), (8, 3)),
        ];
        for (value, expected) in values {
            let (kind, payload) = kind_and_payload(value);
            assert_eq!((kind, payload), expected);
            let result = CoreResult::returned(value, 9);
            let expected = digest([0, kind, u64::from(payload), 9]);
            assert_eq!(CoreResultDigest::from_result(&result).0, expected);
        }
    }

    #[test]
    fn a_register_word_is_kind_times_2_32_plus_payload() {
        assert_eq!(value_word(CoreValue::Unit), 0);
        assert_eq!(value_word(CoreValue::I32(-1)), 0x3_ffff_ffff);
    }
}
