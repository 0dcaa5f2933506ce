//! The comparing itself: engines that are wrong in one way must be found, by
//! the worked cases and by the generated ones.

mod memory;
mod rounds;
mod shrinking;

use oracle::digest::digest;
use oracle::image::{self, Record};
use oracle::reading::{self, End, Run};
use oracle::verdict::Answer;
use semantic_core_runtime::CoreTrap;

use super::*;

type Execute = fn(Asked) -> u64;
type Round = Result<(), End>;

/// As many generated cases as an engine that is wrong gets.
const CASES: u64 = 3_000;

/// The reading, asked like an engine.
fn right(asked: Asked) -> u64 {
    answering(asked, |_| {})
}

/// An engine like the reading, but for its answer.
fn answering(asked: Asked, change: impl Fn(&mut Answer)) -> u64 {
    let mut found = reading::answer(asked.image, asked.limits, asked.frames, asked.registers);
    change(&mut found);
    *asked.answer = found.words;
    found.number
}

/// An engine like the reading, but for its rounds.
fn playing(asked: Asked, round: impl FnMut(&mut Run) -> Round) -> u64 {
    let found = match image::check(asked.image) {
        Ok(program) => Run::new(&program, asked.limits, asked.frames, asked.registers).play(round),
        Err(fault) => fault.into(),
    };
    *asked.answer = found.words;
    found.number
}

/// The instruction that is to run, if it has this opcode and there is fuel for
/// it.
fn about_to(run: &Run, opcode: u8) -> Option<Record> {
    let fuelled = run.used < run.limits.fuel;
    run.instruction()
        .filter(|record| record.opcode == opcode && fuelled)
}

/// Charges for an instruction, which then traps.
fn trap(run: &mut Run, trap: CoreTrap) -> Round {
    run.used += 1;
    Err(trap.into())
}

fn engine(execute: Execute) -> Engine {
    Engine { execute, digest }
}

fn generated(engine: Engine, count: u64, complete: bool) -> (bool, String) {
    let plan = Plan {
        seed: 1,
        count,
        complete,
    };
    let mut output = Vec::new();
    let mut progress = Progress::new(io::sink());
    let good = compare_generated(engine, plan, &mut output, &mut progress).unwrap();
    (good, String::from_utf8(output).unwrap())
}

fn worked(engine: Engine) -> (bool, String) {
    let mut output = Vec::new();
    let good = compare_worked(engine, &mut output).unwrap();
    (good, String::from_utf8(output).unwrap())
}

/// Says that the worked and the generated cases both show the engine to be
/// wrong, and not merely that something never occurred.
#[track_caller]
fn differs(execute: Execute) {
    let (good, text) = worked(engine(execute));
    assert!(!good, "worked: {text}");
    differs_in_generated(execute);
}

#[track_caller]
fn differs_in_generated(execute: Execute) -> String {
    let (good, text) = generated(engine(execute), CASES, false);
    assert!(!good && !text.contains("equal"), "generated: {text}");
    shrinking::is_small(engine(execute), &text);
    text
}

#[test]
fn an_engine_that_is_right_is_equal() {
    let (good, text) = worked(engine(right));
    assert!(good, "{text}");
    assert!(text.ends_with(" worked cases of runs: equal\n"));
    let (good, text) = generated(engine(right), CASES, true);
    assert!(good, "{text}");
    assert!(text.contains("compared 3000 programs in "), "{text}");
    assert!(text.ends_with(" runs: equal\n"), "{text}");
}

/// What never occurred is said, and is a failure only if that is asked for.
#[test]
fn what_never_occurred_is_named() {
    for complete in [false, true] {
        let (good, text) = generated(engine(right), 0, complete);
        assert_eq!(good, !complete);
        assert!(text.contains("never occurred: returned, InvalidPc, "));
        assert!(text.ends_with(", opcode 55\n"), "{text}");
    }
}

/// Wrong where no worked case looks, so that a generated one is reported.
#[test]
fn a_generated_case_is_named_and_printed() {
    let text = differs_in_generated(|asked| {
        let odd = asked.limits.max_call_depth == 64;
        right(asked) + u64::from(odd)
    });
    let lines: Vec<&str> = text.lines().collect();
    let start = lines[0].strip_prefix("case ").unwrap();
    let (number, end) = start.split_once(' ').unwrap();
    assert_eq!(end, "of seed 1: differs");
    assert!(lines[1].starts_with("  expected: "), "{text}");
    assert!(lines[2].starts_with("  ours: "), "{text}");
    let mut output = Vec::new();
    print_case(1, number.parse().unwrap(), &mut output).unwrap();
    let printed = String::from_utf8(output).unwrap();
    let asked: Vec<&str> = printed.lines().collect();
    assert!(asked
        .chunks(2)
        .any(|pair| pair[0] == lines[3] && pair[1].starts_with(lines[4])));
}

/// What an earlier case left in the scratch does not matter.
#[test]
fn a_case_hangs_on_seed_and_number_alone() {
    let mut scratch = Scratch::default();
    for number in (0..200).rev() {
        let case = Case::new(5, number, &mut scratch);
        let mut expected = String::new();
        for (_, ask) in case.asks(number) {
            expected += &format!("{}\n{}\n", ask.settings(), ask.line());
        }
        let mut output = Vec::new();
        print_case(5, number, &mut output).unwrap();
        assert_eq!(String::from_utf8(output).unwrap(), expected);
    }
}

#[test]
fn the_place_of_a_wrong_word_is_named() {
    let (good, text) = worked(engine(|asked| {
        if let Some(last) = asked.registers.last_mut() {
            *last ^= 1;
        }
        right(asked)
    }));
    assert!(!good);
    assert!(text.contains("differs in register word 2047\n"), "{text}");
    let settings = "fuel 1000000, depth 64, lent 256 frame words, 2048 register words";
    assert!(text.contains(&format!("\n{settings}\nrun 1000000 64 0100")));
}

/// FNV's own prime.
fn with_another_prime([status, kind, payload, used]: [u64; 4]) -> u64 {
    let words = [status, kind, payload, 0, used];
    words.iter().fold(0xcbf2_9ce4_8422_2325, |sum, word| {
        (sum ^ word).wrapping_mul((1 << 40) + 435)
    })
}

#[test]
fn a_wrong_digest_is_found() {
    // The last two cut words to what a run could give.
    let all: [fn([u64; 4]) -> u64; 4] = [
        |words| digest(words) ^ 1,
        with_another_prime,
        |[status, kind, payload, used]| digest([status, kind & 0xff, payload, used]),
        |[status, kind, payload, used]| digest([status, kind, payload, used & 0xffff_ffff]),
    ];
    for digest in all {
        let engine = Engine {
            execute: right,
            digest,
        };
        assert!(!worked(engine).0);
        let (good, text) = generated(engine, CASES, false);
        assert!(!good && text.contains(": the digest of "), "{text}");
    }
}

#[test]
fn a_wrong_answer_is_found() {
    differs(|asked| {
        answering(asked, |answer| {
            let [status, kind, payload, used, digest] = &mut answer.words;
            if answer.number == 0 {
                *digest = with_another_prime([*status, *kind, *payload, *used]);
            }
        })
    });
    // A word that is to be 0 after a refusal.
    differs(|asked| {
        answering(asked, |answer| {
            answer.words[4] += u64::from(answer.number > 0);
        })
    });
    // A trap that comes with a value.
    differs(|asked| {
        answering(asked, |answer| {
            answer.words[1] += u64::from(answer.number == 0 && answer.words[0] > 0);
        })
    });
    // A refusal for want of room that does not say what was used.
    differs(|asked| {
        answering(asked, |answer| {
            if matches!(answer.number, 6 | 7) {
                answer.words[0] = 0;
            }
        })
    });
    // Any status or number that is the next one.
    differs(|asked| answering(asked, |answer| answer.words[0] += 1));
    differs(|asked| answering(asked, |answer| answer.number += 1));
}

#[test]
fn a_changed_image_is_found() {
    let execute = |asked: Asked| {
        if let Some(byte) = asked.image.last_mut() {
            *byte ^= 1;
        }
        0
    };
    let (good, text) = worked(engine(execute));
    assert!(!good);
    assert!(text.contains("the image, or memory around it, was changed"));
    differs(execute);
}
