//! How runs end: every kind of value, every trap, with their fuel and digest.

use knitcauldron::{
    enough_room, execute, Fx, Limits, Profile, Quad, Room, Run, Status, Trap, Value,
};

use crate::identifiers::digest_of;
use crate::images::{
    add_i32, assert, call, divide_i32, document_01, jump, load_bool, load_fx, load_i32, load_quad,
    load_u32, plain, program, ret, Instr, TRAP,
};

const LIMITS: Limits = Limits {
    fuel: 20,
    max_call_depth: 3,
};

/// Runs in as much room as a function of two registers can need.
fn run(image: &[u8], limits: Limits) -> Run {
    let needed = enough_room(limits.max_call_depth, 2);
    let mut room = Room {
        frame_words: &mut vec![0; needed.frame_words],
        register_words: &mut vec![0; needed.register_words],
    };
    execute(image, limits, &mut room).expect("there is room")
}

fn run_code(code: &[Instr]) -> Run {
    run(&program(0, &[(2, code)]), LIMITS)
}

/// The whole of a run, its digest worked out here.
fn expected(status: Status, value: Value, fuel_used: u64) -> Run {
    let words = [status.number(), value.kind(), value.payload(), fuel_used];
    Run {
        status,
        value,
        fuel_used,
        digest: digest_of(words),
    }
}

#[test]
fn every_kind_of_value_that_instructions_make_is_returned() {
    let loads = [
        (plain(3), Value::Unit),
        (load_quad(0, 0), Value::Quad(Quad::N)),
        (load_quad(0, 1), Value::Quad(Quad::F)),
        (load_quad(0, 2), Value::Quad(Quad::T)),
        (load_quad(0, 3), Value::Quad(Quad::S)),
        (load_bool(0, false), Value::Bool(false)),
        (load_bool(0, true), Value::Bool(true)),
        (load_i32(0, i32::MIN), Value::I32(i32::MIN)),
        (load_i32(0, i32::MAX), Value::I32(i32::MAX)),
        (load_u32(0, u32::MAX), Value::U32(u32::MAX)),
        (load_fx(0, -1), Value::Fx(Fx::from_raw(-1))),
        (load_fx(0, i32::MAX), Value::Fx(Fx::from_raw(i32::MAX))),
    ];
    for (load, value) in loads {
        let got = run_code(&[load, ret(0)]);
        assert_eq!(got, expected(Status::Returned, value, 2));
        assert_eq!(got.returned(), Ok(value));
    }
}

/// A program for each trap, with the fuel that it uses up to there.
fn traps() -> Vec<(Trap, Vec<u8>, u64)> {
    let code = |code: &[Instr]| program(0, &[(2, code)]);
    let two = |first, second, then| code(&[first, second, then]);
    vec![
        (Trap::InvalidPc, code(&[]), 0),
        (Trap::InvalidRegister, code(&[ret(2)]), 1),
        (Trap::TypeMismatch, code(&[add_i32(0, 0, 1)]), 1),
        (
            Trap::DivisionByZero,
            two(load_i32(0, 1), load_i32(1, 0), divide_i32(0, 0, 1)),
            3,
        ),
        (
            Trap::IntegerOverflow,
            two(load_i32(0, i32::MAX), load_i32(1, 1), add_i32(0, 0, 1)),
            3,
        ),
        (Trap::FuelExceeded, code(&[jump(0)]), LIMITS.fuel),
        (Trap::CallDepthExceeded, code(&[call(0, 0, 0, 0)]), 3),
        (Trap::InvalidFunction, program(1, &[(2, &[ret(0)])]), 0),
        (
            Trap::AssertFailed,
            code(&[load_bool(0, false), assert(0)]),
            2,
        ),
        (Trap::ExplicitTrap, code(&[TRAP]), 1),
    ]
}

#[test]
fn every_trap_is_a_result_with_its_fuel() {
    let traps = traps();
    let in_order: Vec<Trap> = traps.iter().map(|(trap, ..)| *trap).collect();
    assert_eq!(in_order, Trap::ALL);
    for (trap, image, fuel_used) in traps {
        let got = run(&image, LIMITS);
        assert_eq!(got, expected(Status::Trapped(trap), Value::Unit, fuel_used));
        assert_eq!(got.returned(), Err(trap));
    }
}

#[test]
fn fuel_and_depth_are_the_limits_given() {
    let limits = |fuel, max_call_depth| Limits {
        fuel,
        max_call_depth,
    };
    let image = document_01();
    let ended = |limits| {
        let run = run(&image, limits);
        (run.returned(), run.fuel_used)
    };
    assert_eq!(ended(limits(0, 1)), (Err(Trap::FuelExceeded), 0));
    assert_eq!(ended(limits(1, 1)), (Err(Trap::FuelExceeded), 1));
    assert_eq!(ended(limits(2, 0)), (Ok(Value::I32(-1)), 2));
    assert_eq!(ended(limits(1 << 32, 1)), (Ok(Value::I32(-1)), 2));
    assert_eq!(ended(limits(u64::MAX, 1)), (Ok(Value::I32(-1)), 2));
}

#[test]
fn defaults_are_document_01_s() {
    let limits = Limits {
        fuel: 1_000_000,
        max_call_depth: 64,
    };
    let profile = Profile {
        max_registers: 256,
        max_functions: 256,
        max_call_depth: 64,
        max_instrs_per_function: 8_192,
        max_fuel: 1_000_000,
    };
    assert_eq!((Limits::default(), Limits::DEFAULT), (limits, limits));
    assert_eq!((Profile::default(), Profile::SAFE), (profile, profile));
    let forever = program(0, &[(1, &[jump(0)])]);
    assert_eq!(run(&forever, Limits::DEFAULT).fuel_used, 1_000_000);
}

#[test]
fn statuses_are_read_from_their_numbers_and_no_others() {
    assert_eq!(Status::from_number(0), Some(Status::Returned));
    for trap in Trap::ALL {
        let status = Status::Trapped(trap);
        assert_eq!(status.number(), 1 + u64::from(trap.code()));
        assert_eq!(Status::from_number(status.number()), Some(status));
    }
    assert_eq!(Status::from_number(11), None);
    assert_eq!(Status::from_number(u64::MAX), None);
}

#[test]
fn runs_in_parallel_do_not_disturb_each_other() {
    let images = traps();
    std::thread::scope(|scope| {
        for _ in 0..4 {
            scope.spawn(|| {
                for (trap, image, fuel_used) in images.iter().cycle().take(2_000) {
                    let got = run(image, LIMITS);
                    assert_eq!((got.returned(), got.fuel_used), (Err(*trap), *fuel_used));
                }
            });
        }
    });
}
