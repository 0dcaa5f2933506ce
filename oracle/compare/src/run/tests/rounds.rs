//! Engines whose rounds go wrong in one way.

use oracle::verdict;
use oracle::word::{word, FX};
use semantic_core_runtime::CoreAdmissionProfile;

use super::*;

#[test]
fn a_ret_that_is_charged_nothing_is_found() {
    differs(|asked| {
        playing(asked, |run| {
            let ret = about_to(run, 55).is_some();
            let done = run.round();
            run.used -= u64::from(ret);
            done
        })
    });
}

#[test]
fn a_charge_before_the_place_is_looked_at_is_found() {
    differs(|asked| {
        playing(asked, |run| match run.instruction() {
            None if run.used == run.limits.fuel => Err(CoreTrap::FuelExceeded.into()),
            None => trap(run, CoreTrap::InvalidPc),
            Some(_) => run.round(),
        })
    });
}

#[test]
fn fuel_that_ends_below_its_limit_is_found() {
    differs(|asked| {
        playing(asked, |run| {
            let done = run.round();
            if done == Err(End::Trapped(CoreTrap::FuelExceeded)) {
                run.used = run.used.saturating_sub(1);
            }
            done
        })
    });
}

#[test]
fn a_place_that_goes_on_at_the_end_is_found() {
    differs(|asked| {
        playing(asked, |run| {
            let done = run.round();
            if matches!(done, Err(End::Trapped(_))) {
                run.set_place(run.running().place + 1);
            }
            done
        })
    });
    differs(|asked| {
        playing(asked, |run| {
            let done = run.round();
            if matches!(done, Err(End::Returned(_))) {
                run.set_place(run.running().place + 1);
            }
            done
        })
    });
}

/// An engine that keeps the place to itself and writes it only at a Call.
#[test]
fn a_place_that_is_not_written_is_found() {
    differs(|asked| {
        playing(asked, |run| {
            let done = run.round();
            if done == Err(End::Trapped(CoreTrap::FuelExceeded)) {
                run.set_place(0);
            }
            done
        })
    });
}

#[test]
fn a_dst_looked_at_by_the_call_is_found() {
    differs(|asked| {
        playing(asked, |run| match about_to(run, 54) {
            Some(call) if call.a >= run.running_function().regs => {
                trap(run, CoreTrap::InvalidRegister)
            }
            _ => run.round(),
        })
    });
}

#[test]
fn a_depth_that_does_not_count_the_entry_is_found() {
    differs(|mut asked| {
        let depth = &mut asked.limits.max_call_depth;
        *depth = depth.saturating_add(1);
        right(asked)
    });
}

#[test]
fn an_entry_kept_out_by_the_depth_is_found() {
    differs(|asked| {
        playing(asked, |run| match run.limits.max_call_depth {
            0 => Err(CoreTrap::CallDepthExceeded.into()),
            _ => run.round(),
        })
    });
}

#[test]
fn a_call_looked_at_in_another_order_is_found() {
    differs(|asked| {
        let functions = image::check(asked.image).map_or(0, |program| program.functions.len());
        playing(asked, |run| match about_to(run, 54) {
            Some(call) if usize::from(call.b) >= functions => trap(run, CoreTrap::InvalidFunction),
            _ => run.round(),
        })
    });
    differs(|asked| {
        playing(asked, |run| {
            let regs = u32::from(run.running_function().regs);
            match about_to(run, 54) {
                Some(call) if call.w > 0 && u32::from(call.c) + call.w > regs => {
                    trap(run, CoreTrap::InvalidRegister)
                }
                _ => run.round(),
            }
        })
    });
}

#[test]
fn an_empty_window_out_of_place_is_found() {
    differs(|asked| {
        playing(asked, |run| {
            let regs = run.running_function().regs;
            match about_to(run, 54) {
                Some(call) if call.w == 0 && call.c > regs => trap(run, CoreTrap::InvalidRegister),
                _ => run.round(),
            }
        })
    });
}

#[test]
fn a_missing_dst_that_the_ret_passes_over_is_found() {
    differs(|asked| {
        playing(asked, |run| {
            let below = run.depth > 1 && about_to(run, 55).is_some();
            let done = run.round();
            match done {
                Err(End::Trapped(CoreTrap::InvalidRegister)) if below => {
                    run.depth -= 1;
                    Ok(())
                }
                done => done,
            }
        })
    });
}

#[test]
fn a_rhs_that_is_always_read_is_found() {
    differs(|asked| {
        playing(asked, |run| {
            let record = about_to(run, 19).or(about_to(run, 20));
            let regs = run.running_function().regs;
            match record {
                Some(record) if record.c >= regs => trap(run, CoreTrap::InvalidRegister),
                Some(record) => {
                    let at = run.running().first as usize + usize::from(record.c);
                    match run.registers[at] >> 32 {
                        2 => run.round(),
                        _ => trap(run, CoreTrap::TypeMismatch),
                    }
                }
                None => run.round(),
            }
        })
    });
}

/// An engine that stores another result of this opcode on two fixed-point
/// numbers, by their raw units.
pub fn with_fixed_point(asked: Asked, opcode: u8, other: fn(i64, i64) -> i64) -> u64 {
    playing(asked, |run| {
        let operation = about_to(run, opcode);
        let first = run.running().first as usize;
        let at = |register: u16| first + usize::from(register);
        let raw = operation.map(|record| {
            [record.b, record.c].map(|register| {
                let word = run.registers.get(at(register)).copied().unwrap_or(0);
                i64::from(word as u32 as i32)
            })
        });
        run.round()?;
        if let (Some(record), Some([lhs, rhs])) = (operation, raw) {
            run.registers[at(record.a)] = word(FX, other(lhs, rhs) as u32);
        }
        Ok(())
    })
}

/// The product of a negative and a positive number is cut, and so one more
/// than its floor.
#[test]
fn an_fx_mul_that_is_cut_is_found() {
    differs(|asked| with_fixed_point(asked, 43, |lhs, rhs| lhs * rhs / 65_536));
}

/// The quotient of a negative and a positive number is its floor, and so one
/// less than what is left of it toward zero.
#[test]
fn an_fx_div_that_is_floored_is_found() {
    differs(|asked| {
        with_fixed_point(asked, 44, |lhs, rhs| {
            let (quotient, rest) = (lhs * 65_536 / rhs, lhs * 65_536 % rhs);
            quotient - i64::from(rest != 0 && (rest < 0) != (rhs < 0))
        })
    });
}

/// The flag of the default configuration says that a program is validated
/// first; the Rust never looks at it.
#[test]
fn a_run_that_validates_first_is_found() {
    differs(|asked| {
        let verdict = verdict::of_image(asked.image, CoreAdmissionProfile::safe());
        if verdict.number == 0 {
            return right(asked);
        }
        *asked.answer = verdict.words;
        verdict.number
    });
}
