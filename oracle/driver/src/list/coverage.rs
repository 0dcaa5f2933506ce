//! What the list must have, so that nothing is dropped from it unseen.

use std::collections::{BTreeSet, HashSet};

use semantic_core_runtime::CoreTrap;

use super::{runs, List, MOST_BYTES};
use crate::image;
use crate::measure::{Measure, Scratch, OPCODES};
use crate::run::Case;
use crate::verdict::{of_image, Answer};

/// The names of what the list lacks.
pub fn missing(list: &List) -> Vec<String> {
    let mut seen = BTreeSet::new();
    see_verdicts(list, &mut seen);
    see_runs(list, &mut seen);
    let mut missing = wanted();
    missing.retain(|name| !seen.contains(name));
    missing.extend(seen.into_iter().filter(|name| name.starts_with(SMALL)));
    missing
}

/// What names of faults begin with: what is seen and must not be.
const SMALL: &str = "bound kept by";

fn wanted() -> Vec<String> {
    let verdicts = (0..=5).chain(10..=20).map(verdict);
    let profiles = (0..2).flat_map(|kind| (1..=5).map(move |field| profile(kind, field)));
    let statuses = (0..=10).map(status);
    let faults = (1..=5).map(fault);
    let opcodes = (0..OPCODES).map(opcode);
    let others = OTHERS.iter().map(|name| name.to_string());
    let all = verdicts.chain(profiles).chain(statuses).chain(faults);
    all.chain(opcodes).chain(others).collect()
}

const ARGUMENTS: &str = "call with arguments";
const NO_FUEL: &str = "run with fuel 0";
const ALL_FUEL: &str = "run with all the fuel there is";
const NO_FUNCTIONS: &str = "run of an empty program";
const NO_ENTRY: &str = "run of an entry that is not there";
const FUEL: &str = "fuel that is just enough, and one short of it";
const DEPTH: &str = "depth that is just enough, and one short of it";
const OTHERS: [&str; 7] = [
    ARGUMENTS,
    NO_FUEL,
    ALL_FUEL,
    NO_FUNCTIONS,
    NO_ENTRY,
    FUEL,
    DEPTH,
];

fn verdict(number: u64) -> String {
    format!("verdict {number}")
}

fn profile(kind: u64, field: u64) -> String {
    format!("verdict 10 {kind} {field}")
}

fn status(status: u64) -> String {
    format!("run of status {status}")
}

fn fault(number: u64) -> String {
    format!("run refused {number}")
}

fn opcode(opcode: usize) -> String {
    format!("begun opcode {opcode}")
}

fn see_verdicts(list: &List, seen: &mut BTreeSet<String>) {
    for case in &list.verdicts {
        let Answer { number, words } = of_image(&case.image, case.profile);
        seen.insert(verdict(number));
        if number == 10 {
            seen.insert(profile(words[0], words[1]));
        }
        if case.image.len() > MOST_BYTES {
            seen.insert(format!("{SMALL} {}", case.line()));
        }
    }
}

fn see_runs(list: &List, seen: &mut BTreeSet<String>) {
    let cases: HashSet<&Case> = list.runs.iter().collect();
    let mut scratch = Scratch::default();
    for case in &list.runs {
        let answer = case.answer();
        let measure = scratch.measure(&case.image, case.limits, answer.words[3]);
        see_ending(&answer, &measure, seen);
        see_limits(case, seen);
        if !runs::is_small(case) {
            seen.insert(format!("{SMALL} {}", case.line()));
        }
        if answer.number == 0 {
            see_edges(case, &answer, &measure, &cases, seen);
        }
    }
}

fn see_ending(answer: &Answer, measure: &Measure, seen: &mut BTreeSet<String>) {
    seen.insert(match answer.number {
        0 => status(answer.words[0]),
        number => fault(number),
    });
    let begun = (0..OPCODES).filter(|at| measure.begun[*at] > 0);
    seen.extend(begun.map(opcode));
    if measure.passing > 0 {
        seen.insert(ARGUMENTS.to_string());
    }
}

fn see_limits(case: &Case, seen: &mut BTreeSet<String>) {
    let tables = image::check(&case.image).ok();
    let functions = tables.as_ref().map_or(1, |tables| tables.functions.len());
    let entry = tables.map_or(0, |tables| usize::from(tables.entry));
    let found = [
        (case.limits.fuel == 0, NO_FUEL),
        (case.limits.fuel == u64::MAX, ALL_FUEL),
        (functions == 0, NO_FUNCTIONS),
        (functions > 0 && entry >= functions, NO_ENTRY),
    ];
    let found = found.iter().filter(|(found, _)| *found);
    seen.extend(found.map(|(_, name)| name.to_string()));
}

/// A run with nothing to spare, and another one in the list with one less that
/// comes to grief over it.
fn see_edges(
    case: &Case,
    answer: &Answer,
    measure: &Measure,
    cases: &HashSet<&Case>,
    seen: &mut BTreeSet<String>,
) {
    let mut less_fuel = case.clone();
    less_fuel.limits.fuel = case.limits.fuel.wrapping_sub(1);
    let mut less_depth = case.clone();
    less_depth.limits.max_call_depth = case.limits.max_call_depth.wrapping_sub(1);
    let just = answer.words[3] == case.limits.fuel;
    let deep = measure.deepest == usize::from(case.limits.max_call_depth);
    let edges = [
        (just, less_fuel, CoreTrap::FuelExceeded, FUEL),
        (deep, less_depth, CoreTrap::CallDepthExceeded, DEPTH),
    ];
    for (just_enough, less, trap, name) in edges {
        let status = 1 + u64::from(trap.code());
        let ends_with = |answer: &Answer| answer.number == 0 && answer.words[0] == status;
        let short = || cases.contains(&less) && ends_with(&less.answer());
        if just_enough && !ends_with(answer) && short() {
            seen.insert(name.to_string());
        }
    }
}
