use std::collections::{BTreeMap, HashSet};

use semantic_core_exec::{CoreConfig, CoreExecutor, CoreResult, CoreStatus};
use semantic_core_runtime::CoreTrap;

use super::*;
use crate::answer::answer;
use crate::image::read;
use crate::verdict::{of_image, Answer, NAMES};

const CASES: u64 = 20_000;
const RUNS: u64 = 5_000;

fn answer_to(case: &Case) -> Answer {
    of_image(&case.image, case.profile)
}

/// A program as it is before anything is put out of place.
fn in_order(number: u64) -> Program {
    typed::program(&mut SplitMix64::for_case(1, number))
}

fn run(program: &Program) -> CoreResult {
    let program = read(&program.image()).unwrap();
    let mut config = CoreConfig::default();
    config.fuel = 10_000;
    CoreExecutor::new(config).execute_outcome(&program)
}

#[test]
fn a_case_hangs_on_seed_and_number_alone() {
    let forwards: Vec<Case> = (0..200).map(|number| Case::new(5, number)).collect();
    for (number, case) in forwards.iter().enumerate().rev() {
        assert_eq!(Case::new(5, number as u64), *case);
    }
    let different: HashSet<String> = forwards.iter().map(Case::line).collect();
    assert!(different.len() > 190);
    assert_ne!(Case::new(6, 0), forwards[0]);
    assert_eq!(program(5, 9), program(5, 9));
}

#[test]
fn each_line_asks_for_its_case() {
    for number in 0..500 {
        let case = Case::new(1, number);
        let Answer { number, words } = answer_to(&case);
        let text = answer(case.line().as_bytes()).unwrap();
        if text == "admitted" {
            assert_eq!(number, 0);
            continue;
        }
        let mut fields = text.split(' ').skip(1).map(|f| f.parse().unwrap());
        assert_eq!(fields.next(), Some(number));
        let values: Vec<u64> = fields.collect();
        assert_eq!(values, words[..values.len()]);
        assert!(words[values.len()..].iter().all(|word| *word == 0));
    }
}

/// A third is admitted, so that a check that is missing and one that is too
/// many are both seen; and each answer occurs often enough.
#[test]
fn every_answer_occurs_in_its_share() {
    let mut counts = BTreeMap::new();
    for number in 0..CASES {
        *counts
            .entry(answer_to(&Case::new(1, number)).number)
            .or_insert(0) += 1;
    }
    let admitted = counts[&0];
    assert!(admitted > CASES / 4 && admitted < CASES / 2, "{counts:?}");
    for (number, name) in NAMES {
        let count = counts.get(&number).copied().unwrap_or(0);
        assert!(count >= CASES / 100, "{name}: {count}");
    }
    assert_eq!(counts.len(), NAMES.len());
}

#[test]
fn every_opcode_occurs_in_programs_in_order() {
    let mut counts = [0; 256];
    for record in (0..1_000)
        .map(in_order)
        .flat_map(|program| program.functions)
        .flat_map(|function| function.instrs)
    {
        counts[usize::from(record.opcode)] += 1;
    }
    let (known, unknown) = counts.split_at(56);
    assert!(known.iter().all(|count| *count > 50), "{known:?}");
    assert!(unknown.iter().all(|count| *count == 0));
}

#[test]
fn a_program_in_order_is_admitted() {
    for number in 0..RUNS {
        let answer = of_image(&in_order(number).image(), CoreAdmissionProfile::safe());
        assert_eq!(answer, Answer::new(0, &[]), "program {number}");
    }
}

/// Operands have the right types whichever way a run goes, and most runs end
/// with a value after more than a few steps.
#[test]
fn a_program_in_order_does_something() {
    let (mut returned, mut steps) = (0, 0);
    for number in 0..RUNS {
        let result = run(&in_order(number));
        let out_of_order = [
            CoreTrap::InvalidPc,
            CoreTrap::InvalidRegister,
            CoreTrap::TypeMismatch,
            CoreTrap::InvalidFunction,
        ];
        if let CoreStatus::Trapped(trap) = result.status {
            assert!(!out_of_order.contains(&trap), "program {number}: {trap:?}");
        }
        returned += u64::from(result.status == CoreStatus::Returned);
        steps += u64::from(result.fuel_used > 10);
    }
    assert!(returned > RUNS * 3 / 4 && returned < RUNS, "{returned}");
    assert!(steps > RUNS * 3 / 4, "{steps}");
}

/// It is admitted all the same, and many runs meet their function's end.
#[test]
fn a_function_that_goes_past_its_end_is_admitted() {
    let mut past = 0;
    for number in 0..RUNS {
        let mut program = in_order(number);
        misplace::past_the_end(&mut SplitMix64::for_case(2, number), &mut program);
        let answer = of_image(&program.image(), CoreAdmissionProfile::safe());
        assert_eq!(answer, Answer::new(0, &[]), "program {number}");
        past += u64::from(run(&program).status == CoreStatus::Trapped(CoreTrap::InvalidPc));
    }
    assert!(past > RUNS / 4, "{past}");
}

#[test]
fn most_admitted_cases_do_something_when_run() {
    let (mut admitted, mut working) = (0, 0);
    let cases = (0..RUNS).map(|number| Case::new(1, number));
    for case in cases.filter(|case| answer_to(case).number == 0) {
        let program = read(&case.image).unwrap();
        let result = CoreExecutor::new(CoreConfig::default()).execute_outcome(&program);
        admitted += 1;
        let returned = result.status == CoreStatus::Returned;
        working += u64::from(returned || result.fuel_used > 10);
    }
    assert!(working * 4 > admitted * 3, "{working} of {admitted}");
}

#[test]
fn programs_to_run_end_in_every_way() {
    let mut endings = BTreeMap::new();
    for number in 0..RUNS {
        let ending = match run(&program(1, number)).status {
            CoreStatus::Returned => None,
            CoreStatus::Trapped(trap) => Some(trap.code()),
        };
        *endings.entry(ending).or_insert(0) += 1;
    }
    assert_eq!(endings.len(), 11, "{endings:?}");
    assert!(endings[&None] > RUNS / 2, "{endings:?}");
}

/// Each of these by itself in some of them, since one may hide another.
#[test]
fn programs_to_run_have_calls_out_of_place() {
    let (mut dst, mut window, mut fx) = (0, 0, 0);
    for function in (0..RUNS).flat_map(|number| program(1, number).functions) {
        let regs = function.regs;
        for record in &function.instrs {
            let call = record.opcode == 54;
            dst += u64::from(call && record.a >= regs);
            window += u64::from(call && record.w == 0 && record.c > regs);
            fx += u64::from(record.opcode == 8 && record.w % 16_384 != 0);
        }
    }
    assert!(dst > RUNS / 50, "{dst}");
    assert!(window > RUNS / 50, "{window}");
    assert!(fx > RUNS, "{fx}");
}

#[test]
fn the_sizes_at_a_limit_and_past_it_occur() {
    let answers: HashSet<(u64, [u64; 5])> = (0..CASES)
        .map(|number| answer_to(&Case::new(1, number)))
        .map(|answer| (answer.number, answer.words))
        .collect();
    let past = |number, at: usize, size, limit| {
        answers
            .iter()
            .any(|(found, words)| *found == number && words[at..at + 2] == [size, limit])
    };
    assert!(past(13, 0, 257, 256) && past(13, 0, 4_097, 4_096));
    assert!(past(13, 0, 65_536, 4_096));
    assert!(past(14, 1, 257, 256) && past(14, 1, 16_385, 16_384));
    assert!(past(15, 1, 8_193, 8_192));
    for number in [77, 77 + 512] {
        let at_limit = Case::new(1, number);
        assert!(at_limit.image.len() > 96_000);
    }
}

#[test]
fn a_million_instructions_are_rare() {
    let large = |number: u64| {
        let mut program = in_order(number);
        sizes::grow(&mut SplitMix64(1), number, &mut program);
        let longest = program.functions.iter().map(|f| f.instrs.len()).max();
        longest.unwrap_or(0)
    };
    let numbers: Vec<usize> = (0..32_768).map(large).filter(|n| *n > 100_000).collect();
    assert_eq!(numbers, [1_000_000, 1_000_001]);
}
