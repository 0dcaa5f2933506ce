//! `knit_event_id` as a caller in Rust sees it, linked with the archive.

use std::process::ExitCode;

use boundary::{answer, Answer, Lent, ANSWER_WORDS};

extern "C" {
    fn knit_event_id(
        lesson: u32,
        digest: u64,
        out: *mut u8,
        out_len: usize,
        answer: *mut u64,
    ) -> u64;
}

const ID_BYTES: usize = 25;
const ID_ROOM: u64 = 9;
const LAST_LENGTH: usize = 60;
const BESIDE: usize = 16;
const FILL: u8 = 0xA5;

/// Calls the function safely: a slice and an array keep every promise that its header asks of a caller.
/// Nothing where a word beside the answer was changed.
fn event_id(lesson: u32, digest: u64, out: &mut [u8]) -> Option<Answer> {
    let mut lent = Lent::new(ANSWER_WORDS);
    // SAFETY: the pointers come from a slice and an array that outlive the call, do not overlap, and are never null.
    let number = unsafe {
        knit_event_id(
            lesson,
            digest,
            out.as_mut_ptr(),
            out.len(),
            lent.words().as_mut_ptr(),
        )
    };
    lent.back().map(|words| answer(number, words))
}

struct Case {
    lesson: u32,
    digest: u64,
    text: String,
    length: usize,
    /// How many bytes stand before the lent ones; cases differ in it, and so in their alignment.
    before: usize,
}

fn case(lesson: u32, digest: u64, text: &str, length: usize) -> Case {
    Case {
        lesson,
        digest,
        text: text.to_owned(),
        length,
        before: BESIDE + length % 8,
    }
}

/// Written out by hand from document 01.
const EVENTS: [(u32, u64, &str); 8] = [
    (0, 0, "00000000-0000000000000000"),
    (1, 1, "00000001-0000000000000001"),
    (15, 16, "0000000f-0000000000000010"),
    (1 << 31, 1 << 63, "80000000-8000000000000000"),
    (u32::MAX, u64::MAX, "ffffffff-ffffffffffffffff"),
    (u32::MAX, 0, "ffffffff-0000000000000000"),
    (
        0x0123_4567,
        0x89ab_cdef_0123_4567,
        "01234567-89abcdef01234567",
    ),
    (4_711, 0x6ffa_4144_d88d_4a53, "00001267-6ffa4144d88d4a53"),
];

/// Every length for the events above, and every digit at every place, by Rust's own formatting.
fn cases() -> Vec<Case> {
    let lengths = EVENTS.iter().flat_map(|(lesson, digest, text)| {
        (0..=LAST_LENGTH).map(|length| case(*lesson, *digest, text, length))
    });
    let digits = (1..16).flat_map(|digit| (0..16).map(move |place| (digit, place)));
    let formatted = digits.map(|(digit, place): (u32, u32)| {
        let (lesson, digest) = (digit << (4 * (place % 8)), u64::from(digit) << (4 * place));
        let text = format!("{lesson:08x}-{digest:016x}");
        case(lesson, digest, &text, ID_BYTES + place as usize)
    });
    lengths.chain(formatted).collect()
}

/// The answer that a case must get, and its lent bytes afterwards with those around them.
fn expected(case: &Case) -> (Answer, Vec<u8>) {
    let mut whole = vec![FILL; case.before + case.length + BESIDE];
    if case.length < ID_BYTES {
        return (answer(ID_ROOM, &[]), whole);
    }
    whole[case.before..][..ID_BYTES].copy_from_slice(case.text.as_bytes());
    (answer(0, &[ID_BYTES as u64]), whole)
}

/// Prints what is wrong with a case, if anything is.
fn is_right(case: &Case) -> bool {
    let (expected, whole) = expected(case);
    let mut bytes = vec![FILL; whole.len()];
    let got = event_id(
        case.lesson,
        case.digest,
        &mut bytes[case.before..][..case.length],
    );
    let name = format!("{} in {} bytes", case.text, case.length);
    if got != Some(expected) {
        println!(
            "wrong: {name}: expected {expected:?}, got {got:?} (None: words beside the answer changed)"
        );
        return false;
    }
    if bytes != whole {
        println!("wrong: {name}: expected the bytes {whole:02x?}, got {bytes:02x?}");
        return false;
    }
    true
}

fn main() -> ExitCode {
    boundary::run("knit_event_id", &cases(), is_right)
}
