//! Every refusal, provoked through the calls that can give it.

use knitcauldron::{
    event_id_in, execute, validate, LimitFault, Limits, Profile, ProfileLimit, Refusal, Room,
};

use crate::images::{call, document_01, jump, patched, program, ret, NOP};

fn two_functions() -> Vec<u8> {
    program(0, &[(1, &[NOP, ret(0)]), (1, &[NOP, ret(0)])])
}

#[rustfmt::skip] // one line for each refusal
fn image_faults() -> Vec<(Vec<u8>, Refusal)> {
    vec![
        (vec![], Refusal::Short),
        (document_01()[..23].to_vec(), Refusal::Short),
        (patched(document_01(), 0, 2), Refusal::Form),
        (document_01()[..63].to_vec(), Refusal::Layout),
        (patched(two_functions(), 46, 1), Refusal::FunctionTable { function: 1 }),
        // Only the sum fails, so that the number is that of all functions.
        (patched(two_functions(), 52, 1), Refusal::FunctionTable { function: 2 }),
        (patched(two_functions(), 92, 56), Refusal::Instruction { instruction: 3 }),
    ]
}

#[test]
fn image_faults_are_refused_by_both_calls() {
    for (image, refusal) in image_faults() {
        assert_eq!(validate(&image, &Profile::SAFE), Err(refusal));
        let mut room = Room {
            frame_words: &mut [0; 64],
            register_words: &mut [0; 64],
        };
        assert_eq!(execute(&image, Limits::DEFAULT, &mut room), Err(refusal));
    }
}

#[test]
fn image_faults_come_before_limits_and_room() {
    let no_limits = Profile {
        max_registers: 0,
        ..Profile::SAFE
    };
    for (image, refusal) in image_faults() {
        assert_eq!(validate(&image, &no_limits), Err(refusal));
        let mut room = Room {
            frame_words: &mut [],
            register_words: &mut [],
        };
        assert_eq!(execute(&image, Limits::DEFAULT, &mut room), Err(refusal));
    }
}

/// The safe profile with another value in one limit.
fn with_limit(limit: ProfileLimit, value: u64) -> Profile {
    let mut profile = Profile::SAFE;
    match limit {
        ProfileLimit::MaxRegisters => profile.max_registers = value as u16,
        ProfileLimit::MaxFunctions => profile.max_functions = value as u16,
        ProfileLimit::MaxCallDepth => profile.max_call_depth = value as u16,
        ProfileLimit::MaxInstrsPerFunction => profile.max_instrs_per_function = value as u32,
        ProfileLimit::MaxFuel => profile.max_fuel = value,
    }
    profile
}

#[test]
fn each_limit_of_a_profile_has_both_ends() {
    let image = document_01();
    for limit in ProfileLimit::ALL {
        let refused = |fault| Err(Refusal::Profile { fault, limit });
        let verdict = |value| validate(&image, &with_limit(limit, value));
        assert_eq!(verdict(0), refused(LimitFault::Zero));
        assert_eq!(verdict(limit.highest() + 1), refused(LimitFault::TooHigh));
        assert_eq!(verdict(limit.highest()), Ok(()));
    }
}

#[test]
fn a_highest_fuel_of_64_bits_is_not_cut() {
    let profile = with_limit(ProfileLimit::MaxFuel, 1 << 32);
    let refusal = Refusal::Profile {
        fault: LimitFault::TooHigh,
        limit: ProfileLimit::MaxFuel,
    };
    assert_eq!(validate(&document_01(), &profile), Err(refusal));
}

#[track_caller]
fn refused(image: Vec<u8>, profile: Profile, refusal: Refusal) {
    assert_eq!(validate(&image, &profile), Err(refusal));
}

#[test]
fn programs_that_are_wrong_as_a_whole() {
    let one_function = with_limit(ProfileLimit::MaxFunctions, 1);
    let too_many = Refusal::TooManyFunctions {
        functions: 2,
        limit: 1,
    };
    refused(program(0, &[]), Profile::SAFE, Refusal::EmptyProgram);
    refused(two_functions(), one_function, too_many);
    refused(
        program(2, &[(1, &[ret(0)]), (1, &[ret(0)])]),
        Profile::SAFE,
        Refusal::InvalidEntry { entry: 2 },
    );
}

#[test]
fn functions_that_are_too_large() {
    let registers = Refusal::TooManyRegisters {
        function: 0,
        registers: 257,
        limit: 256,
    };
    let instructions = Refusal::TooManyInstructions {
        function: 1,
        instructions: 8_193,
        limit: 8_192,
    };
    refused(program(0, &[(257, &[ret(0)])]), Profile::SAFE, registers);
    let long = [ret(0); 8_193];
    refused(
        program(0, &[(1, &[ret(0)]), (1, &long)]),
        Profile::SAFE,
        instructions,
    );
    assert_eq!(
        validate(&program(0, &[(256, &[ret(255)])]), &Profile::SAFE),
        Ok(())
    );
    assert_eq!(
        validate(&program(0, &[(1, &long[1..])]), &Profile::SAFE),
        Ok(())
    );
}

#[test]
#[rustfmt::skip] // one line for each refusal
fn instructions_that_break_a_rule() {
    let function = 1;
    let code = |code: &[_]| program(0, &[(1, &[ret(0)]), (1, code)]);
    let window = Refusal::InvalidArgWindow { function, arg_base: 1, arg_count: 65_535 };
    for (image, refusal) in [
        (code(&[ret(65_535)]), Refusal::InvalidRegister { function, register: 65_535 }),
        (code(&[jump(u32::MAX), ret(0)]), Refusal::InvalidJump { function, target: u32::MAX }),
        (code(&[call(0, 2, 0, 0), ret(0)]), Refusal::InvalidCall { function, called: 2 }),
        (code(&[NOP]), Refusal::MissingReturn { function }),
        (code(&[call(0, 0, 1, 65_535), ret(0)]), window),
    ] {
        refused(image, Profile::SAFE, refusal);
    }
}

#[test]
fn too_little_room_is_refused_with_the_fuel_used() {
    let itself = program(0, &[(2, &[NOP, call(1, 0, 0, 1)])]);
    for (frames, registers, refusal) in [
        (3, 9, Refusal::FrameRoom { fuel_used: 0 }),
        (4, 1, Refusal::RegisterRoom { fuel_used: 0 }),
        (7, 9, Refusal::FrameRoom { fuel_used: 2 }),
        (8, 3, Refusal::RegisterRoom { fuel_used: 2 }),
        (12, 6, Refusal::FrameRoom { fuel_used: 6 }),
    ] {
        let mut room = Room {
            frame_words: &mut vec![0; frames],
            register_words: &mut vec![0; registers],
        };
        let answer = execute(&itself, Limits::DEFAULT, &mut room);
        assert_eq!(answer, Err(refusal), "{frames} and {registers} words");
    }
}

#[test]
fn too_few_bytes_for_an_identifier_are_refused_and_stay() {
    for length in 0..25 {
        let mut out = vec![0xa5; length];
        assert_eq!(event_id_in(1, 2, &mut out), Err(Refusal::IdRoom));
        assert_eq!(out, vec![0xa5; length]);
    }
}

/// A refusal of each number, in the order of the table.
#[rustfmt::skip] // one line for each
pub fn one_of_each() -> Vec<Refusal> {
    let (function, fuel_used) = (3, 5);
    vec![
        Refusal::Short,
        Refusal::Form,
        Refusal::Layout,
        Refusal::FunctionTable { function: 3 },
        Refusal::Instruction { instruction: 3 },
        Refusal::FrameRoom { fuel_used },
        Refusal::RegisterRoom { fuel_used },
        Refusal::IdRoom,
        Refusal::Profile { fault: LimitFault::TooHigh, limit: ProfileLimit::MaxFuel },
        Refusal::EmptyProgram,
        Refusal::InvalidEntry { entry: 3 },
        Refusal::TooManyFunctions { functions: 5, limit: 4 },
        Refusal::TooManyRegisters { function, registers: 5, limit: 4 },
        Refusal::TooManyInstructions { function, instructions: 5, limit: 4 },
        Refusal::InvalidRegister { function, register: 5 },
        Refusal::InvalidJump { function, target: 5 },
        Refusal::InvalidCall { function, called: 5 },
        Refusal::MissingReturn { function },
        Refusal::InvalidArgWindow { function, arg_base: 5, arg_count: 6 },
    ]
}

#[test]
fn each_text_is_one_line_with_its_numbers_and_an_advice() {
    let texts: Vec<String> = one_of_each().iter().map(Refusal::to_string).collect();
    for (refusal, text) in one_of_each().iter().zip(&texts) {
        assert!(text.contains("; "), "{text}");
        assert!(
            !text.contains(['\n', '{', '}']) && !text.contains("  "),
            "{text}"
        );
        let same = texts.iter().filter(|other| *other == text).count();
        assert_eq!(same, 1, "{text}");
        let numbers = refusal.words();
        // Those of a profile stand for words.
        let missing = |word: &&u64| !text.contains(&word.to_string());
        if refusal.number() != 10 {
            let shown = numbers.iter().filter(|word| **word != 0);
            assert_eq!(shown.clone().find(missing), None, "{text}");
        }
    }
}

#[test]
fn a_profile_s_text_names_the_limit_and_its_range() {
    let text = |fault| {
        let limit = ProfileLimit::MaxInstrsPerFunction;
        Refusal::Profile { fault, limit }.to_string()
    };
    assert_eq!(
        text(LimitFault::Zero),
        "the profile's max_instrs_per_function is 0; set it to a number from 1 to 1000000"
    );
    assert_eq!(
        text(LimitFault::TooHigh),
        "the profile's max_instrs_per_function is too high; set it to a number from 1 to 1000000"
    );
}

#[test]
fn numbers_are_those_of_the_table_in_its_order() {
    let numbers: Vec<u64> = one_of_each().iter().map(Refusal::number).collect();
    assert_eq!(numbers, (1..=7).chain(9..=20).collect::<Vec<u64>>());
}

#[test]
fn a_refusal_is_an_error_like_others() {
    let boxed: Box<dyn std::error::Error + Send + Sync> = Refusal::Form.into();
    assert_eq!(boxed.to_string(), Refusal::Form.to_string());
}
