//! Our engine, as its archive exports it. All that is unsafe stands here.

use semantic_core_runtime::CoreAdmissionProfile;

use crate::run::Asked;

extern "C" {
    fn knit_validate(
        image: *const u8,
        image_len: usize,
        max_registers: u16,
        max_functions: u16,
        max_call_depth: u16,
        max_instrs_per_function: u32,
        max_fuel: u64,
        answer: *mut u64,
    ) -> u64;

    fn knit_execute(
        image: *const u8,
        image_len: usize,
        fuel: u64,
        max_call_depth: u16,
        frames: *mut u64,
        frames_len: usize,
        registers: *mut u64,
        registers_len: usize,
        answer: *mut u64,
    ) -> u64;

    fn knit_digest(status: u64, kind: u64, payload: u64, fuel_used: u64) -> u64;

    fn knit_event_id(
        lesson: u32,
        digest: u64,
        out: *mut u8,
        out_len: usize,
        answer: *mut u64,
    ) -> u64;
}

/// Asks our engine whether an image is admitted under a profile.
///
/// The engine has to leave the image as it is. It is lent as if it could be
/// changed, so that a change is something to be seen and not undefined.
pub fn validate(image: &mut [u8], profile: CoreAdmissionProfile, answer: &mut [u64; 5]) -> u64 {
    // SAFETY: the image's pointer and length come from one slice, the answer
    // has the five words that the call writes, both are lent to nobody else
    // until the call is over, and it keeps neither.
    unsafe {
        knit_validate(
            image.as_mut_ptr(),
            image.len(),
            profile.max_registers,
            profile.max_functions,
            profile.max_call_depth,
            profile.max_instrs_per_function,
            profile.max_fuel,
            answer.as_mut_ptr(),
        )
    }
}

/// Asks our engine to run an image in lent memory.
pub fn execute(asked: Asked) -> u64 {
    let Asked {
        image,
        limits,
        frames,
        registers,
        answer,
    } = asked;
    // SAFETY: each pointer goes with the length of the slice it comes from, the
    // answer has the five words that the call writes, all four are lent to
    // nobody else until the call is over, and it keeps none of them.
    unsafe {
        knit_execute(
            image.as_mut_ptr(),
            image.len(),
            limits.fuel,
            limits.max_call_depth,
            frames.as_mut_ptr(),
            frames.len(),
            registers.as_mut_ptr(),
            registers.len(),
            answer.as_mut_ptr(),
        )
    }
}

/// Asks our engine for the digest of status, kind, payload and fuel used.
pub fn digest([status, kind, payload, used]: [u64; 4]) -> u64 {
    // SAFETY: the call takes four numbers and touches no memory of ours.
    unsafe { knit_digest(status, kind, payload, used) }
}

/// Asks our engine for the event identifier of a lesson and a digest.
pub fn event_id(lesson: u32, digest: u64, out: &mut [u8], answer: &mut [u64; 5]) -> u64 {
    // SAFETY: the pointer goes with the length of its slice, the answer has the
    // five words that the call writes, both are lent to nobody else until the
    // call is over, and it keeps neither.
    unsafe {
        knit_event_id(
            lesson,
            digest,
            out.as_mut_ptr(),
            out.len(),
            answer.as_mut_ptr(),
        )
    }
}
