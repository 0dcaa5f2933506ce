//! Stand-in for a module that is missing from the source we were given.
//!
//! `lib.rs` beside this file declares `logic_frame` and calls seven functions
//! of it, all from the lane-wise `map_*_scalar` operations of its 32-lane
//! register. The executor uses only `QuadState` itself and reaches none of
//! them. What the real functions compute is not known here, so each of these
//! stops the program: a call cannot pass for an answer.

use crate::QuadState;

fn not_part_of_the_source(name: &str) -> ! {
    unreachable!("logic_frame::{name} is a stand-in that must never be called")
}

pub fn not(_a: QuadState) -> QuadState {
    not_part_of_the_source("not")
}

pub fn and(_a: QuadState, _b: QuadState) -> QuadState {
    not_part_of_the_source("and")
}

pub fn or(_a: QuadState, _b: QuadState) -> QuadState {
    not_part_of_the_source("or")
}

pub fn xor(_a: QuadState, _b: QuadState) -> QuadState {
    not_part_of_the_source("xor")
}

pub fn implies(_a: QuadState, _b: QuadState) -> QuadState {
    not_part_of_the_source("implies")
}

pub fn nand(_a: QuadState, _b: QuadState) -> QuadState {
    not_part_of_the_source("nand")
}

pub fn nor(_a: QuadState, _b: QuadState) -> QuadState {
    not_part_of_the_source("nor")
}
