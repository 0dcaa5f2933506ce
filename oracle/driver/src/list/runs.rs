//! The list's runs: the worked ones that are small, runs that take as much as
//! the list allows, then generated ones: some for each ending, and some with
//! fuel and depth at their edges.

use super::{Distinct, MOST_BYTES, MOST_DEPTH, MOST_WORDS};
use crate::generate;
use crate::image;
use crate::measure::{Measure, Scratch};
use crate::program::{Function, Program};
use crate::reading::Limits;
use crate::records::{call, load, plain, ret};
use crate::run::{ending, Case, ENDINGS};
use crate::verdict::Answer;
use crate::worked;

const SEED: u64 = 0x6b6e_6974_0000_0003;
/// What a generated run may use: enough for most to come to their own end.
const FUEL: u64 = 2_000;
/// As many generated runs as each ending gets.
const EACH: usize = 6;
/// As many generated programs as are asked about at their edges.
const AT_EDGES: usize = 20;

/// Places among the endings.
const FUEL_EXCEEDED: usize = 6;
const CALL_DEPTH_EXCEEDED: usize = 7;
/// The refusals for want of room come last, and a run with enough has none.
const WITH_ROOM: usize = ENDINGS.len() - 2;

pub fn all() -> Vec<Case> {
    let mut list = Distinct::new();
    for worked in worked::runs::all() {
        let (image, limits) = (worked.image, worked.limits);
        add(&mut list, Case { image, limits });
    }
    for case in at_the_bounds() {
        add(&mut list, case);
    }
    for case in of_each_ending() {
        add(&mut list, case);
    }
    for case in at_edges() {
        add(&mut list, case);
    }
    list.cases
}

fn add(list: &mut Distinct<Case>, case: Case) {
    if is_small(&case) {
        let line = case.line();
        list.add(case, line);
    }
}

/// Whether a program with little memory can answer it.
pub fn is_small(case: &Case) -> bool {
    let depth = case.limits.max_call_depth;
    let words = usize::from(depth.max(1)) * largest(&case.image);
    case.image.len() <= MOST_BYTES && depth <= MOST_DEPTH && words <= MOST_WORDS
}

/// The most registers that one of the image's functions has.
fn largest(image: &[u8]) -> usize {
    let functions = image::check(image).map_or(Vec::new(), |tables| tables.functions);
    let most = functions.iter().map(|function| function.regs).max();
    usize::from(most.unwrap_or(0))
}

/// Every register word that the list allows is used, and then every byte: two
/// functions and 162 instructions make 2,000.
fn at_the_bounds() -> [Case; 2] {
    let limits = Limits {
        fuel: FUEL,
        max_call_depth: MOST_DEPTH,
    };
    let deep = Program::single(256, vec![load(7, 255, 0, 9), call(0, 0, 255, 1)]);
    let mut long = vec![plain(0); 159];
    long.extend([call(0, 1, 0, 1), ret(0)]);
    let long = Program {
        entry: 0,
        functions: vec![Function::new(1, long), Function::new(1, vec![ret(0)])],
    };
    [deep, long].map(|program| Case {
        image: program.image(),
        limits,
    })
}

/// The first so many small runs of each ending, in their order.
fn of_each_ending() -> Vec<Case> {
    let mut wanted = [EACH; WITH_ROOM];
    let mut cases = Vec::new();
    let mut number = 0;
    while wanted.iter().any(|left| *left > 0) {
        let case = generated(number);
        number += 1;
        let place = ending(&case.answer()).filter(|_| is_small(&case));
        if let Some(left @ 1..) = place.and_then(|at| wanted.get_mut(at)) {
            *left -= 1;
            cases.push(case);
        }
    }
    cases
}

fn generated(number: u64) -> Case {
    Case {
        image: generate::image(SEED, number),
        limits: Limits {
            fuel: FUEL,
            max_call_depth: MOST_DEPTH,
        },
    }
}

/// Runs of small programs that come to their own end and go more than one
/// frame deep, each with just the fuel and the depth that it needs and with
/// one less of either.
fn at_edges() -> Vec<Case> {
    let mut scratch = Scratch::default();
    let cases = (0..).map(generated).filter(is_small);
    let edges = cases.filter_map(|case| {
        let answer = case.answer();
        let measure = scratch.measure(&case.image, case.limits, answer.words[3]);
        edges_of(case, &answer, &measure)
    });
    edges.take(AT_EDGES).flatten().collect()
}

fn edges_of(case: Case, answer: &Answer, measure: &Measure) -> Option<[Case; 4]> {
    let place = ending(answer)?;
    let own_end = !matches!(place, FUEL_EXCEEDED | CALL_DEPTH_EXCEEDED);
    if !own_end || measure.deepest < 2 {
        return None;
    }
    let (fuel, depth) = (answer.words[3], measure.deepest as u16);
    let limits = [
        (fuel, MOST_DEPTH),
        (fuel - 1, MOST_DEPTH),
        (FUEL, depth),
        (FUEL, depth - 1),
    ];
    Some(limits.map(|(fuel, max_call_depth)| Case {
        image: case.image.clone(),
        limits: Limits {
            fuel,
            max_call_depth,
        },
    }))
}
