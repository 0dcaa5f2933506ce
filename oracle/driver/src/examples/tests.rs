use super::*;
use crate::image::read;
use crate::runner::line;

fn example(file: &str) -> Example {
    let found = all().into_iter().find(|example| example.file == file);
    found.unwrap()
}

/// The lines by hand, from what each rule says.
#[test]
fn each_example_ends_as_it_should() {
    let expected = [
        // 1 + 2 + .. + 1000; four loads, four in each round, the Ret.
        ("counting-loop.image", "done 0 4 500500 4005"),
        // 50 minutes less 10, in quarters of an hour begun: 3 of 15.
        ("lesson-cover.image", "done 0 4 45 40"),
        // 60 / 130 is 30247 raw, and 48.5 times that is 1466979.5.
        ("room-share.image", "done 0 5 1466979 11"),
        ("refused-upload.image", "done 2 0 0 3"),
        ("endless.image", "done 6 0 0 1000000"),
        ("damaged.image", "refused 3 0"),
        ("wrong-opcode.image", "refused 5 39"),
    ];
    let found = all();
    assert_eq!(found.len(), expected.len());
    for (example, (file, expected)) in found.iter().zip(expected) {
        assert_eq!(example.file, file);
        assert_eq!(line(&example.image), expected, "{file}");
    }
}

/// What is no image any more has no rules, and every other one has.
#[test]
fn images_and_rules_go_together() {
    for example in all() {
        let functions = read(&example.image).map_or(0, |program| program.functions.len());
        assert_eq!(functions, example.rules.len(), "{}", example.file);
    }
}

/// The rule decides by what it is told: each fact put otherwise changes it.
#[test]
fn the_lesson_rule_asks_for_each_of_its_facts() {
    let with = |place: usize, other: Instr| {
        let mut rules = example("lesson-cover.image").rules;
        rules[0].instrs[place] = other;
        line(&program("", "", rules).image)
    };
    let [office, staff, _, room, pupils, minutes, load] = numbered(&[""; 7]);
    let quad = |dst, value| Instr::LoadQuad { dst, value };
    let number = |dst, value| Instr::LoadU32 { dst, value };
    // Nobody is absent; two reports contradict each other; no word of a room;
    // no pupils: no cover, or a trap.
    assert!(with(0, quad(office, QuadState::N)).starts_with("done 0 4 0 "));
    assert!(with(1, quad(staff, QuadState::F)).starts_with("done 9 0 0 "));
    assert!(with(3, quad(room, QuadState::N)).starts_with("done 0 4 0 "));
    assert!(with(4, number(pupils, 0)).starts_with("done 0 4 0 "));
    // An hour less ten minutes is four quarters begun, and one of ten none.
    assert!(with(5, number(minutes, 60)).starts_with("done 0 4 60 "));
    assert!(with(5, number(minutes, 10)).starts_with("done 0 4 0 "));
    assert!(with(5, number(minutes, 9)).starts_with("done 5 0 0 "));
    // A colleague with five days already must not be planned.
    let full = Instr::LoadFx {
        dst: load,
        value: hundredths(500),
    };
    assert!(with(6, full).starts_with("done 9 0 0 "));
}
