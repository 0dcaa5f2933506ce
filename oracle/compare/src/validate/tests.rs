use oracle::image;
use oracle::text::hex_bytes;

use super::*;

/// The Rust itself, asked like an engine.
fn right(image: &mut [u8], profile: CoreAdmissionProfile, words: &mut [u64; 5]) -> u64 {
    let answer = of_image(image, profile);
    *words = answer.words;
    answer.number
}

fn generated(engine: Engine, count: u64, complete: bool) -> (bool, String) {
    let plan = Plan {
        seed: 1,
        count,
        complete,
    };
    let mut output = Vec::new();
    let mut progress = Progress::new(io::sink());
    let good = compare_generated(engine, plan, &mut output, &mut progress).unwrap();
    (good, String::from_utf8(output).unwrap())
}

fn worked(engine: Engine) -> (bool, String) {
    let mut output = Vec::new();
    let good = compare_worked(engine, &mut output).unwrap();
    (good, String::from_utf8(output).unwrap())
}

/// Says that the worked and the generated cases both show the engine to be
/// wrong, and gives both reports.
#[track_caller]
fn differs(engine: Engine) -> [String; 2] {
    let (good, text) = worked(engine);
    assert!(!good, "worked: {text}");
    [text, differs_in_generated(engine)]
}

#[track_caller]
fn differs_in_generated(engine: Engine) -> String {
    let (good, text) = generated(engine, 3_000, false);
    assert!(!good && !text.contains("equal"), "generated: {text}");
    text
}

#[test]
fn an_engine_that_is_right_is_equal() {
    let (good, text) = generated(right, 3_000, true);
    assert!(good, "{text}");
    assert!(text.ends_with("compared 3000 programs: equal\n"), "{text}");
    let (good, text) = worked(right);
    assert!(good, "{text}");
    assert!(text.ends_with(" worked cases of admission: equal\n"));
}

/// What never occurred is said, and is a failure only if that is asked for.
#[test]
fn answers_that_never_occurred_are_named() {
    for complete in [false, true] {
        let (good, text) = generated(right, 0, complete);
        assert_eq!(good, !complete);
        assert!(text.contains("never occurred: admitted, Short, "), "{text}");
    }
}

#[test]
fn a_wrong_number_or_word_is_found() {
    let [text, _] = differs(|image, profile, words| right(image, profile, words) ^ 1);
    assert!(text.starts_with("worked case \"the image of document 01\": differs\n"));
    differs(|image, profile, words| {
        let number = right(image, profile, words);
        words[4] = 1;
        number
    });
    // An engine that writes as many words as the answer has values.
    differs(|image, profile, words| {
        let answer = of_image(image, profile);
        words[0] = answer.words[0];
        answer.number
    });
}

#[test]
fn a_changed_image_is_found() {
    let [text, _] = differs(|image, profile, words| {
        let number = right(image, profile, words);
        if let Some(byte) = image.last_mut() {
            *byte ^= 1;
        }
        number
    });
    assert!(text.contains("the image, or memory around it, was changed"));
}

/// Wrong only where no worked case looks: windows that begin at 10 to 99.
fn wrong_window(image: &mut [u8], profile: CoreAdmissionProfile, words: &mut [u64; 5]) -> u64 {
    let number = right(image, profile, words);
    number + u64::from(number == 20 && (10..100).contains(&words[1]))
}

#[test]
fn a_generated_case_is_named_and_printed() {
    let (good, _) = worked(wrong_window);
    assert!(good);
    let text = differs_in_generated(wrong_window);
    let lines: Vec<&str> = text.lines().collect();
    let start = lines[0].strip_prefix("case ").unwrap();
    let (number, end) = start.split_once(' ').unwrap();
    assert_eq!(end, "of seed 1: differs");
    assert!(lines[1].starts_with("  expected: 20 (InvalidArgWindow), words "));
    assert!(lines[2].starts_with("  ours: 21 (no such number), words "));
    let line = Case::new(1, number.parse().unwrap()).line();
    assert!(line.starts_with(lines[3]));
    let cut = format!("; the whole line: compare case 1 {number}");
    assert_eq!(line == lines[3], !text.contains(&cut));
}

/// The case that a report ends with, by its line.
fn shrunk(text: &str) -> Case {
    let lines: Vec<&str> = text.lines().collect();
    let at = lines.iter().position(|l| l.starts_with("made smaller in "));
    let [_, expected, ours, line] = lines[at.unwrap()..] else {
        panic!("{text}");
    };
    assert!(expected.starts_with("  expected: ") && ours.starts_with("  ours: "));
    let fields: Vec<&str> = line.split(' ').collect();
    let number = |place: usize| fields[place].parse::<u64>().unwrap();
    assert_eq!(fields[0], "validate");
    Case {
        profile: CoreAdmissionProfile {
            max_registers: number(1) as u16,
            max_functions: number(2) as u16,
            max_call_depth: number(3) as u16,
            max_instrs_per_function: number(4) as u32,
            max_fuel: number(5),
        },
        image: hex_bytes(fields[6].as_bytes()).unwrap(),
    }
}

/// A Call alone is left: its window begins at 10, past its one register or its
/// none.
#[test]
fn a_wrong_window_becomes_one_instruction() {
    let case = shrunk(&differs_in_generated(wrong_window));
    assert_eq!(case.profile, CoreAdmissionProfile::safe());
    let tables = image::check(&case.image).unwrap();
    assert_eq!(tables.functions.len(), 1);
    let [call] = tables.instructions[..] else {
        panic!("{tables:?}");
    };
    assert_eq!(
        (call.opcode, call.a, call.b, call.c, call.w),
        (54, 0, 0, 10, 0)
    );
}

/// An engine that looks at one limit past its bound: that limit is left.
#[test]
fn a_wrong_profile_becomes_one_limit() {
    let text = differs_in_generated(|image, profile, words| {
        let number = right(image, profile, words);
        number + u64::from(number == 10 && words[..2] == [1, 4])
    });
    let case = shrunk(&text);
    assert_eq!(case.profile.max_instrs_per_function, 1_000_001);
    assert_eq!(case.profile.max_registers, 1);
    assert_eq!(case.image.len(), 24);
}

/// Bytes that are no image lose all that the fault does not need.
#[test]
fn a_wrong_fault_becomes_few_bytes() {
    let text = differs_in_generated(|image, profile, words| {
        let number = right(image, profile, words);
        number + u64::from(number == 3)
    });
    assert_eq!(shrunk(&text).image.len(), 24);
    let text = differs_in_generated(|image, profile, words| {
        let number = right(image, profile, words);
        number + u64::from(number == 5)
    });
    let image = shrunk(&text).image;
    assert_eq!(image.len(), 24 + 16 + 12);
    assert_eq!(image::check(&image), Err(image::Fault::Instruction(0)));
}
