//! The list's questions about admission: the worked cases that are small, then
//! generated ones, some for each answer.

use super::{Distinct, MOST_BYTES};
use crate::generate::Case;
use crate::verdict::{of_image, NAMES};
use crate::worked;

const SEED: u64 = 0x6b6e_6974_0000_0002;
/// As many generated cases as each answer gets.
const EACH: usize = 6;

pub fn all() -> Vec<Case> {
    let mut list = Distinct::new();
    for worked in worked::verdicts::all() {
        add(&mut list, worked.case);
    }
    for case in generated() {
        add(&mut list, case);
    }
    list.cases
}

fn add(list: &mut Distinct<Case>, case: Case) {
    if case.image.len() <= MOST_BYTES {
        let line = case.line();
        list.add(case, line);
    }
}

/// The first so many small cases of each answer, in their order.
fn generated() -> Vec<Case> {
    let mut wanted = NAMES.map(|(number, _)| (number, EACH));
    let mut cases = Vec::new();
    let mut number = 0;
    while wanted.iter().any(|(_, left)| *left > 0) {
        let case = Case::new(SEED, number);
        number += 1;
        if case.image.len() > MOST_BYTES {
            continue;
        }
        let answer = of_image(&case.image, case.profile).number;
        let left = wanted.iter_mut().find(|(number, _)| *number == answer);
        if let Some((_, left @ 1..)) = left {
            *left -= 1;
            cases.push(case);
        }
    }
    cases
}
