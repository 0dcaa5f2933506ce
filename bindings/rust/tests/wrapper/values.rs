//! Values and the words that stand for them.

use knitcauldron::{Fx, Quad, Value};

fn samples() -> Vec<(Value, u64, u64, &'static str)> {
    let fx = |raw| Value::Fx(Fx::from_raw(raw));
    vec![
        (Value::Unit, 0, 0, "Unit"),
        (Value::Quad(Quad::N), 1, 0, "Quad N"),
        (Value::Quad(Quad::F), 1, 1, "Quad F"),
        (Value::Quad(Quad::T), 1, 2, "Quad T"),
        (Value::Quad(Quad::S), 1, 3, "Quad S"),
        (Value::Bool(false), 2, 0, "Bool false"),
        (Value::Bool(true), 2, 1, "Bool true"),
        (Value::I32(-1), 3, 0xffff_ffff, "I32 -1"),
        (Value::I32(i32::MIN), 3, 0x8000_0000, "I32 -2147483648"),
        (Value::U32(u32::MAX), 4, 0xffff_ffff, "U32 4294967295"),
        (fx(0), 5, 0, "Fx 0.0"),
        (fx(98_304), 5, 98_304, "Fx 1.5"),
        (fx(-1), 5, 0xffff_ffff, "Fx -0.0000152587890625"),
        (fx(i32::MAX), 5, 0x7fff_ffff, "Fx 32767.9999847412109375"),
        (fx(i32::MIN), 5, 0x8000_0000, "Fx -32768.0"),
        (Value::Tuple(7), 6, 7, "Tuple 7"),
        (Value::Record(8), 7, 8, "Record 8"),
        (Value::Adt(u32::MAX), 8, 0xffff_ffff, "Adt 4294967295"),
    ]
}

#[test]
fn values_go_to_words_and_back() {
    for (value, kind, payload, text) in samples() {
        assert_eq!((value.kind(), value.payload()), (kind, payload));
        assert_eq!(value.word(), kind * (1 << 32) + payload);
        assert_eq!(Value::from_parts(kind, payload), Some(value));
        assert_eq!(Value::from_word(value.word()), Some(value));
        assert_eq!(value.to_string(), text);
    }
}

#[test]
fn words_that_no_value_has_are_none() {
    let parts = [
        (0, 1),
        (1, 4),
        (2, 2),
        (9, 0),
        (u64::MAX, 0),
        (3, 1 << 32),
        (4, u64::MAX),
    ];
    for (kind, payload) in parts {
        assert_eq!(Value::from_parts(kind, payload), None, "{kind}, {payload}");
    }
    for word in [1, 1 << 32 | 4, 2 << 32 | 2, 9 << 32, u64::MAX] {
        assert_eq!(Value::from_word(word), None, "{word}");
    }
}
