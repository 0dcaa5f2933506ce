//! Digests and event identifiers.

use std::collections::BTreeSet;

use knitcauldron::{digest, event_id, event_id_in};

/// The digest of status, kind, payload and fuel used, by document 01's words.
pub fn digest_of([status, kind, payload, fuel_used]: [u64; 4]) -> u64 {
    let mut digest = 0xcbf2_9ce4_8422_2325_u64;
    for word in [status, kind, payload, 0, fuel_used] {
        digest = (digest ^ word).wrapping_mul((1 << 44) + 435);
    }
    digest
}

#[test]
fn digests_of_any_words() {
    // Worked out apart from this program.
    assert_eq!(digest(0, 3, 4_294_967_295, 2), 0x6ffa_4144_d88d_4a53);
    assert_eq!(digest(1, 2, 3, 4), 0xee65_c8bf_4f60_002f);
    for words in [
        [u64::MAX; 4],
        [0; 4],
        [1 << 63, 0, 0, 0],
        [0, 0, 0, 1 << 63],
    ] {
        let [status, kind, payload, fuel_used] = words;
        assert_eq!(digest(status, kind, payload, fuel_used), digest_of(words));
    }
}

#[test]
fn identifiers_are_lesson_and_digest_in_hex() {
    for (lesson, digest, text) in [
        (0, 0, "00000000-0000000000000000"),
        (42, 0x6ffa_4144_d88d_4a53, "0000002a-6ffa4144d88d4a53"),
        (u32::MAX, u64::MAX, "ffffffff-ffffffffffffffff"),
        (
            0x0123_4567,
            0x89ab_cdef_0123_4567,
            "01234567-89abcdef01234567",
        ),
        (
            0x89ab_cdef,
            0x0123_4567_89ab_cdef,
            "89abcdef-0123456789abcdef",
        ),
    ] {
        let id = event_id(lesson, digest);
        assert_eq!((id.as_str(), id.as_ref()), (text, text));
        assert_eq!(id.as_bytes(), text.as_bytes());
        assert_eq!(
            format!("{id}|{id:<27}|{id:?}"),
            format!("{text}|{text}  |EventId({text:?})")
        );
        assert_eq!(text, format!("{lesson:08x}-{digest:016x}"));
    }
}

#[test]
fn an_identifier_takes_the_first_25_lent_bytes() {
    for length in [25, 26, 60] {
        let mut out = vec![0xa5; length];
        assert_eq!(
            event_id_in(42, 9, &mut out),
            Ok("0000002a-0000000000000009")
        );
        assert_eq!(out[..25], *event_id(42, 9).as_bytes());
        assert!(out[25..].iter().all(|byte| *byte == 0xa5));
    }
}

#[test]
fn identifiers_can_be_keys() {
    let ids = [event_id(1, 5), event_id(1, 6), event_id(1, 5)];
    let distinct = BTreeSet::from(ids);
    assert_eq!(distinct.len(), 2);
    assert_eq!(distinct.first(), Some(&event_id(1, 5)));
}
