use std::collections::BTreeSet;

use oracle::image;
use semantic_core_exec::{validate_program, CoreConfig, CoreStatus};

use super::*;
use crate::sides::Original;

#[test]
fn each_is_admitted_under_safe() {
    for workload in all() {
        let program = image::read(&workload.program.image()).expect("an image");
        assert_eq!(
            validate_program(&program, CoreConfig::default().profile),
            Ok(()),
            "{}",
            workload.name
        );
    }
}

#[test]
fn each_returns_after_about_a_million_steps() {
    for workload in all() {
        let result = Original::new(&workload.program).expect("an image").run();
        assert_eq!(result.status, CoreStatus::Returned, "{}", workload.name);
        let steps = result.fuel_used;
        assert!(
            (990_000..=1_010_000).contains(&steps),
            "{}: {steps}",
            workload.name
        );
    }
}

#[test]
fn counting_takes_a_million_steps_exactly() {
    let result = Original::new(&counting()).expect("an image").run();
    assert_eq!(result.fuel_used, 1_000_000);
}

#[test]
fn mixed_has_every_opcode() {
    let program = mixed();
    let records = program.functions.iter().flat_map(|f| &f.instrs);
    let opcodes: BTreeSet<u8> = records.map(|record| record.opcode).collect();
    assert_eq!(opcodes, (0..56).collect());
}
