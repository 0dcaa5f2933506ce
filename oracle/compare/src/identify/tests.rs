use super::*;

/// The rule, asked like an engine.
fn right(lesson: u32, digest: u64, out: &mut [u8], words: &mut [u64; 5]) -> u64 {
    *words = [0; 5];
    if out.len() < BYTES {
        return ID_ROOM;
    }
    let text = format!("{lesson:08x}-{digest:016x}");
    out[..BYTES].copy_from_slice(text.as_bytes());
    words[0] = 25;
    0
}

fn worked(engine: Engine) -> (bool, String) {
    let mut output = Vec::new();
    let good = compare_worked(engine, &mut output).unwrap();
    (good, String::from_utf8(output).unwrap())
}

fn generated(engine: Engine, count: u64) -> (bool, String) {
    let plan = Plan {
        seed: 1,
        count,
        complete: true,
    };
    let mut output = Vec::new();
    let mut progress = Progress::new(io::sink());
    let good = compare_generated(engine, plan, &mut output, &mut progress).unwrap();
    (good, String::from_utf8(output).unwrap())
}

/// Says that the worked and the other identifiers both show the engine to be
/// wrong, and gives the report of the others.
#[track_caller]
fn differs(engine: Engine) -> String {
    let (good, text) = worked(engine);
    assert!(!good, "worked: {text}");
    differs_in_generated(engine)
}

#[track_caller]
fn differs_in_generated(engine: Engine) -> String {
    let (good, text) = generated(engine, 3_000);
    assert!(!good && !text.contains("equal"), "generated: {text}");
    text
}

#[test]
fn an_engine_that_is_right_is_equal() {
    let (good, text) = worked(right);
    assert!(good, "{text}");
    assert!(text.ends_with(" in 41 lengths each: equal\n"));
    let (good, text) = generated(right, 3_000);
    assert!(good, "{text}");
    let total = 12 * 12 * 41 + 3_000;
    let end = format!("compared {total} identifiers: equal\n");
    assert!(text.ends_with(&end), "{text}");
}

#[test]
fn wrong_digits_are_found() {
    let upper = |lesson, digest, out: &mut [u8], words: &mut [u64; 5]| {
        let number = right(lesson, digest, out, words);
        if number == 0 {
            out[..BYTES].make_ascii_uppercase();
        }
        number
    };
    let text = differs(upper);
    assert!(text.contains(": differs in byte "), "{text}");
    // The digest before the lesson; the last digit cut to eight bits.
    differs(|lesson, digest, out, words| {
        let number = right(lesson, digest, out, words);
        if number == 0 {
            out[..BYTES].rotate_left(9);
        }
        number
    });
    differs(|lesson, digest, out, words| right(lesson, digest & !(0xff << 56), out, words));
    differs(|lesson, digest, out, words| right(lesson & 0xffff, digest, out, words));
}

#[test]
fn a_wrong_number_or_word_is_found() {
    // It says nothing of the bytes written, or as many as were lent.
    differs(|lesson, digest, out, words| {
        let number = right(lesson, digest, out, words);
        words[0] = 0;
        number
    });
    differs(|lesson, digest, out, words| {
        let number = right(lesson, digest, out, words);
        words[0] = words[0].min(1) * out.len() as u64;
        number
    });
    // A word that stays as it was lent.
    differs(|lesson, digest, out, words| {
        let before = words[4];
        let number = right(lesson, digest, out, words);
        words[4] = before;
        number
    });
    // Room for a zero behind it is asked for, or for one byte less.
    differs(|lesson, digest, out, words| match out.len() {
        BYTES => right(lesson, digest, &mut [], words),
        _ => right(lesson, digest, out, words),
    });
    differs(|lesson, digest, out, words| {
        let number = right(lesson, digest, out, words);
        match out.len() {
            24 => 0,
            _ => number,
        }
    });
}

#[test]
fn bytes_that_must_stay_are_looked_at() {
    // A zero behind the identifier, and one at the end of what is lent.
    differs(|lesson, digest, out, words| {
        let number = right(lesson, digest, out, words);
        if let Some(next) = out.get_mut(BYTES) {
            *next = 0;
        }
        number
    });
    // What fits is written though the call is refused.
    let text = differs(|lesson, digest, out, words| {
        let number = right(lesson, digest, out, words);
        if let (ID_ROOM, Some(first)) = (number, out.first_mut()) {
            *first ^= 1;
        }
        number
    });
    assert!(text.contains(": differs in byte 0\n"), "{text}");
}

/// What is left is the least that shows it.
#[test]
fn a_case_that_differs_becomes_small() {
    let text = differs_in_generated(|lesson, digest, out, words| {
        let number = right(lesson, digest, out, words);
        number + u64::from(digest >= 5_000 && out.len() > 30)
    });
    let lines: Vec<&str> = text.lines().collect();
    assert!(lines[0].starts_with("case ") && lines[0].ends_with(" of seed 1: differs"));
    assert!(lines[3].starts_with("lesson "), "{text}");
    assert!(lines[4].starts_with("made smaller in "), "{text}");
    assert_eq!(lines[7], "lesson 0, digest 5000, lent 31 bytes");
}

#[test]
fn a_case_hangs_on_seed_and_number_alone() {
    let forwards: Vec<Case> = (0..200).map(|number| drawn(5, number)).collect();
    for (number, case) in forwards.iter().enumerate().rev() {
        assert_eq!(drawn(5, number as u64), *case);
    }
    let lengths: std::collections::BTreeSet<usize> =
        (0..3_000).map(|number| drawn(5, number).length).collect();
    assert_eq!(lengths, (0..=MOST_LENT).collect());
}
