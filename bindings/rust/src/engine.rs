//! The engine's functions as its archive exports them. All that is unsafe stands here.
//!
//! What the header asks of every pointer holds of a slice and of an array: they are never null and always aligned, an empty slice
//! too; their memory can be read, through `&mut` written as well, for the whole length; no other thread writes what is borrowed by
//! `&`; and nothing else touches what is borrowed by `&mut`, so that it overlaps nothing. The engine keeps no pointer.

#![allow(unsafe_code)]

use crate::answer::{Answer, ANSWER_WORDS};
use crate::{Limits, Profile, Room};

extern "C" {
    fn knit_validate(
        image: *const u8,
        image_len: usize,
        max_registers: u16,
        max_functions: u16,
        max_call_depth: u16,
        max_instrs_per_function: u32,
        max_fuel: u64,
        answer: *mut u64,
    ) -> u64;

    fn knit_execute(
        image: *const u8,
        image_len: usize,
        fuel: u64,
        max_call_depth: u16,
        frames: *mut u64,
        frames_len: usize,
        registers: *mut u64,
        registers_len: usize,
        answer: *mut u64,
    ) -> u64;

    fn knit_event_id(
        lesson: u32,
        digest: u64,
        out: *mut u8,
        out_len: usize,
        answer: *mut u64,
    ) -> u64;

    fn knit_digest(status: u64, kind: u64, payload: u64, fuel_used: u64) -> u64;
}

pub fn validate(image: &[u8], profile: &Profile) -> Answer {
    let mut words = [0; ANSWER_WORDS];
    // SAFETY: the image's pointer and length are of one slice, which nobody writes while it is borrowed, and which is not null if
    // it is empty. The answer is five words of our own, so that they are aligned, writable and apart from the image.
    let number = unsafe {
        knit_validate(
            image.as_ptr(),
            image.len(),
            profile.max_registers,
            profile.max_functions,
            profile.max_call_depth,
            profile.max_instrs_per_function,
            profile.max_fuel,
            words.as_mut_ptr(),
        )
    };
    Answer {
        call: "knit_validate",
        number,
        words,
    }
}

pub fn execute(image: &[u8], limits: Limits, room: &mut Room<'_>) -> Answer {
    let mut words = [0; ANSWER_WORDS];
    // SAFETY: each pointer goes with the length of the slice that it comes from. Frames and registers are borrowed by `&mut` for
    // the call, so that they are aligned, writable, touched by nobody else and apart from each other and from the image; empty
    // ones are aligned and not null as well. The answer is five words of our own.
    let number = unsafe {
        knit_execute(
            image.as_ptr(),
            image.len(),
            limits.fuel,
            limits.max_call_depth,
            room.frame_words.as_mut_ptr(),
            room.frame_words.len(),
            room.register_words.as_mut_ptr(),
            room.register_words.len(),
            words.as_mut_ptr(),
        )
    };
    Answer {
        call: "knit_execute",
        number,
        words,
    }
}

pub fn event_id(lesson: u32, digest: u64, out: &mut [u8]) -> Answer {
    let mut words = [0; ANSWER_WORDS];
    // SAFETY: pointer and length are of one slice, which is borrowed by `&mut` for the call and not null if it is empty. The
    // answer is five words of our own.
    let number = unsafe {
        knit_event_id(
            lesson,
            digest,
            out.as_mut_ptr(),
            out.len(),
            words.as_mut_ptr(),
        )
    };
    Answer {
        call: "knit_event_id",
        number,
        words,
    }
}

pub fn digest(status: u64, kind: u64, payload: u64, fuel_used: u64) -> u64 {
    // SAFETY: the function takes any four numbers and touches no memory of ours.
    unsafe { knit_digest(status, kind, payload, fuel_used) }
}
